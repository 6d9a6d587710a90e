"""How the tests ask the command: each call is held to its exit status, to the lines on its standard error and to what it leaves behind;
a terminal that keeps what it is shown; a signal that comes while a file is being written.
"""
import contextlib
import fcntl
import os
import pty
import re
import signal
import stat
import struct
import subprocess
import tempfile
import termios
import time

from files import Off, write

PATIENCE = 60


# ---- one call

def listing(folder):
    """Every name below the folder, with what tells whether it was touched."""
    seen = {}
    for place, folders, names in os.walk(os.fsencode(folder)):
        for name in folders + names:
            path = os.path.join(place, name)
            at = os.lstat(path)
            touched = () if stat.S_ISDIR(at.st_mode) else (at.st_size, at.st_mtime_ns, at.st_nlink)
            seen[os.path.relpath(path, os.fsencode(folder))] = (at.st_ino, at.st_mode, *touched)
    return seen


def hold_left(name, before, after, new):
    """The new names are there, made or replaced, and all else is as it was."""
    new = {os.fsencode(each) for each in new}
    absent = sorted(each for each in new if each not in after or after[each] == before.get(each))
    if absent:
        raise Off(f"{name}: {absent} is not written")
    touched = sorted(each for each in {*before, *after} - new if before.get(each) != after.get(each))
    if touched:
        raise Off(f"{name}: {touched} is left behind, changed or gone")


def hold_lines(name, said, lines):
    """As many lines as are wanted, in any order, each with its beginning and its other parts."""
    try:
        *rows, rest = said.decode().split("\n")
    except UnicodeDecodeError:
        raise Off(f"{name}: says what is not UTF-8: {said!r}") from None
    if rest or any(not row.isprintable() for row in rows):
        raise Off(f"{name}: says what is no line: {said!r}")
    if len(rows) != len(lines):
        raise Off(f"{name}: says {len(rows)} lines, and not {len(lines)}: {said.decode()!r}")
    for parts in lines:
        begin, *others = [parts] if isinstance(parts, str) else parts
        fit = [row for row in rows if row.startswith("tillsparrow: " + begin) and all(each.lower() in row.lower() for each in others)]
        if not fit:
            raise Off(f"{name}: says {rows}, and no line 'tillsparrow: {begin}..' with {others}")
        rows.remove(fit[0])


class Command:
    """The program that is tested."""

    def __init__(self, program):
        self.program, self.calls, self.failures = program, 0, 0

    def run(self, words, at, within=(), **how):
        how = {"stdout": subprocess.PIPE, **({} if "input" in how else {"stdin": subprocess.DEVNULL}), **how}
        self.calls += 1
        try:
            return subprocess.run([*within, self.program, *words], cwd=at, stderr=subprocess.PIPE, timeout=PATIENCE, check=False, **how)
        except subprocess.TimeoutExpired:
            raise Off(f"{shown(words)} does not end") from None

    def ask(self, *words, at, status=0, lines=(), new=(), **how):
        """What is written on standard output. `lines` are those on standard error, `new` the names that are made in the folder."""
        before = listing(at)
        done = self.run(words, at, **how)
        if done.returncode != status:
            raise Off(f"{shown(words)}: exit status {done.returncode}, and not {status}: {done.stderr!r}")
        hold_lines(shown(words), done.stderr, lines)
        hold_left(shown(words), before, listing(at), new)
        return done.stdout

    def fails(self, *words, status=2, **how):
        """Nothing on standard output."""
        self.failures += 1
        if self.ask(*words, status=status, **how):
            raise Off(f"{shown(words)}: writes on standard output although it fails")


def shown(words):
    return " ".join(os.fsdecode(word) for word in words).encode("unicode_escape", "surrogateescape").decode()


def fresh(folder, **named):
    """A new folder below the folder, with a file of that name and .jpg for each."""
    at = tempfile.mkdtemp(dir=folder)
    for name, jpeg in named.items():
        write(at, name + ".jpg", jpeg)
    return at


def read(*path):
    with open(os.path.join(*path), "rb") as file:
        return file.read()


def hold_equal(name, seen, wanted):
    if seen != wanted:
        raise Off(f"{name}: {seen!r:.200}, and not {wanted!r:.200}")


# ---- signals

def unhindered():
    """As an interactive shell starts a command, also where these tests run in the background."""
    for each in (signal.SIGINT, signal.SIGTERM, signal.SIGHUP):
        signal.signal(each, signal.SIG_DFL)


def as_nohup_starts():
    signal.signal(signal.SIGHUP, signal.SIG_IGN)


def stopped(command, at, words, send, setup=unhindered):
    """Whether the signal came while the file was being written and ended the command; nothing is then left behind."""
    before = listing(at)
    with subprocess.Popen([command.program, *words], cwd=at, stdin=subprocess.DEVNULL, stdout=subprocess.DEVNULL, stderr=subprocess.PIPE,
                          start_new_session=True, preexec_fn=setup) as process:
        while process.poll() is None and not any(name.startswith(".tillsparrow-") for name in os.listdir(at)):
            time.sleep(0.002)
        send(process)
        process.communicate(timeout=PATIENCE)
    if process.returncode == 0:
        for name in set(os.listdir(at)) - {os.fsdecode(name) for name in before}:
            os.remove(os.path.join(at, name))
        return False
    hold_left(f"{shown(words)}, stopped", before, listing(at), ())
    return True


# ---- a terminal

def on_terminal(command, words, at):
    """What is written where standard error is a terminal, and the seconds that it took."""
    master, slave = pty.openpty()
    fcntl.ioctl(slave, termios.TIOCSWINSZ, struct.pack("HHHH", 24, 80, 0, 0))
    start, said = time.monotonic(), b""
    with subprocess.Popen([command.program, *words], cwd=at, stdin=subprocess.DEVNULL, stdout=subprocess.DEVNULL, stderr=slave,
                          env={**os.environ, "TERM": "xterm-256color"}) as process:
        os.close(slave)
        with contextlib.suppress(OSError):
            while part := os.read(master, 65536):
                said += part
    os.close(master)
    hold_equal(f"{shown(words)} on a terminal: status", process.returncode, 0)
    return said.decode(), time.monotonic() - start


def screens(said):
    """The rows of a terminal's screen after each step of what is written on it: letters, and the codes that move and erase."""
    rows, row, column = [""], 0, 0
    for code, last, letter in re.findall(r"\x1b\[([0-9;?]*)([A-Za-z])|([^\x1b])", said):
        many = int(code) if code.isdigit() else 1
        if letter == "\r":
            column = 0
        elif letter == "\n" or last == "B":
            row += many
            rows += [""] * (row + 1 - len(rows))
        elif letter:
            rows[row] = rows[row][:column].ljust(column) + letter + rows[row][column + 1:]
            column += 1
        elif last == "A":
            row = max(row - many, 0)
        elif last in "CDG":
            column = {"C": column + many, "D": column - many, "G": many - 1}[last]
        elif last in "KJ":
            rows[row] = "" if code == "2" else rows[row][:column]
            rows = rows[:row + 1] if last == "J" else rows
        elif last not in "mhl":
            raise Off(f"a terminal is sent the code {code}{last}")
        yield list(rows)
