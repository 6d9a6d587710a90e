"""A screen for the tests: an X server with no monitor, a window on it, its pixels, its keys."""
import ctypes
import os
import struct
import subprocess
import time

from files import Off, run

PATIENCE = 15


def until(what, look):
    """What `look` finds as soon as it finds something."""
    end = time.monotonic() + PATIENCE
    while time.monotonic() < end:
        found = look()
        if found:
            return found
        time.sleep(0.05)
    raise Off(f"{what}: waited {PATIENCE} s")


def pixels(dump):
    """Width, height and the bytes red, green, blue of each pixel, from what xwd writes of a screen of 24 or 32 bits."""
    words = struct.unpack(">25I", dump[:100])
    size, form, width, height, low_first = words[0], words[2], words[4], words[5], words[7] == 0
    deep, line, masks, colours = words[11], words[12], words[14:17], words[19]
    if form != 2 or deep != 32 or sorted(masks) != [0xFF, 0xFF00, 0xFF0000]:
        raise Off(f"a dump of form {form} with {deep} bits a pixel, masks {masks}")
    start = size + 12 * colours
    places = [(mask.bit_length() // 8 - 1) if low_first else (4 - mask.bit_length() // 8) for mask in masks]
    shown = bytearray(3 * width * height)
    for y in range(height):
        row = dump[start + y * line:start + y * line + 4 * width]
        for channel, place in enumerate(places):
            shown[3 * width * y + channel:3 * width * (y + 1):3] = row[place::4]
    return width, height, bytes(shown)


class ClientMessage(ctypes.Structure):
    """X's event of that name, in the room that X gives to every event."""
    _fields_ = [("kind", ctypes.c_int), ("serial", ctypes.c_ulong), ("sent", ctypes.c_int), ("display", ctypes.c_void_p),
                ("window", ctypes.c_ulong), ("subject", ctypes.c_ulong), ("bits", ctypes.c_int), ("words", ctypes.c_long * 5),
                ("rest", ctypes.c_long * 24)]


def ask_to_close(display, window):
    """What a desktop sends to a window when its close button is pressed."""
    x11 = ctypes.CDLL("libX11.so.6")
    x11.XOpenDisplay.restype = ctypes.c_void_p
    x11.XInternAtom.restype = ctypes.c_ulong
    opened = ctypes.c_void_p(x11.XOpenDisplay(display.encode()))
    if not opened:
        raise Off(f"display {display} cannot be opened")
    protocols, delete = (x11.XInternAtom(opened, name, 0) for name in (b"WM_PROTOCOLS", b"WM_DELETE_WINDOW"))
    event = ClientMessage(kind=33, window=window, subject=protocols, bits=32)
    event.words[0] = delete
    x11.XSendEvent(opened, ctypes.c_ulong(window), 0, ctypes.c_long(0), ctypes.byref(event))
    x11.XCloseDisplay(opened)


class Screen:
    """An X server of its own, on a display number that it finds itself; it ends with the block in every case."""

    def __init__(self, width, height):
        read, write = os.pipe()
        # it would start anew whenever its last client goes, and turn away a client that comes meanwhile
        command = ["Xvfb", "-displayfd", str(write), "-screen", "0", f"{width}x{height}x24", "-nolisten", "tcp", "-noreset"]
        self.server = subprocess.Popen(command, pass_fds=(write,), stdin=subprocess.DEVNULL, stdout=subprocess.DEVNULL,
                                       stderr=subprocess.DEVNULL)
        os.close(write)
        with os.fdopen(read, "rb") as told:
            number = told.readline().decode().strip()
        if not number:
            self.server.kill()
            self.server.wait()
            raise Off("Xvfb did not start")
        self.env = {**os.environ, "DISPLAY": f":{number}"}
        self.env.pop("WAYLAND_DISPLAY", None)
        self.env.pop("SDL_VIDEODRIVER", None)

    def __enter__(self):
        return self

    def __exit__(self, *_):
        self.server.terminate()
        try:
            self.server.wait(PATIENCE)
        except subprocess.TimeoutExpired:
            self.server.kill()
            self.server.wait()


class Window:
    """A program with one window on the screen; it ends with the block in every case."""

    def __init__(self, screen, command):
        self.env, self.name = screen.env, " ".join(command)
        self.program = subprocess.Popen(command, env=self.env, stdin=subprocess.DEVNULL, stdout=subprocess.PIPE, stderr=subprocess.PIPE)

    def __enter__(self):
        try:
            self.id = until(f"{self.name}: no window", self.find)
        except Off:
            self.__exit__()
            raise
        return self

    def __exit__(self, *_):
        if self.program.poll() is None:
            self.program.kill()
            self.program.communicate()

    def find(self):
        if self.program.poll() is not None:
            raise Off("{} ended with {}: {}".format(self.name, *self.ended()))
        found = run(["xdotool", "search", "--onlyvisible", "--pid", str(self.program.pid)], ok=(0, 1), env=self.env).stdout.split()
        return found[-1].decode() if found else None

    def title(self):
        return run(["xdotool", "getwindowname", self.id], env=self.env).stdout.decode().rstrip("\n")

    def shot(self):
        return pixels(run(["xwd", "-silent", "-id", self.id], env=self.env).stdout)

    def shot_when(self, good):
        """A picture of the window that is good, or the last one taken: the window may be there before its first painting."""
        end = time.monotonic() + PATIENCE
        while True:
            shown = self.shot()
            if good(shown) or time.monotonic() > end:
                return shown
            time.sleep(0.05)

    def key(self, key):
        run(["xdotool", "windowfocus", "--sync", self.id, "key", key], env=self.env)

    def close(self):
        ask_to_close(self.env["DISPLAY"], int(self.id))

    def ended(self):
        """The exit status and what was said on standard error, once the program has ended."""
        try:
            said = self.program.communicate(timeout=PATIENCE)[1].decode(errors="replace").strip()
        except subprocess.TimeoutExpired:
            raise Off(f"{self.name} does not end") from None
        return self.program.returncode, said
