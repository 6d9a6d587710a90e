// What the page says: of a refusal, of a record, of a note. Text alone; what comes from a file never becomes markup.
const counted = number => Number(number).toLocaleString("en");

// Why a file is refused, by number, and what to do. 2, 7 and 8 do not come up here, since budget, room and record are always right.
const REFUSALS = {
    1: "The file is longer than this page takes, which is 256 MiB. The command ./tillsparrow takes files of any size.",
    2: "The price of reading it is above the budget.",
    3: "The file ends before its picture begins. Copy it again from the camera.",
    4: "The file breaks a rule of the format before its picture begins: a damaged copy, seldom faulty tables in its head, or no JPEG " +
        "file at all. Copy it again; a file that stays so cannot be trusted.",
    5: "This is a form of JPEG that is not read: progressive, arithmetic coding, 12 bits or the like. Have the camera write baseline files.",
    6: "The picture is larger than this page shows, which is 16,384 pixels a side, and for channels side by side 32,767 across and " +
        "268,435,456 in all. The command ./tillsparrow takes pictures of any size.",
    7: "A buffer is too short.",
    8: "The record is not the file's.",
    9: "The file cannot be settled, for want of an end-of-block code in its own tables. Compare pictures instead.",
};

// Why, where its scan broke, which is the picture's own data. 4 may be the restart before the block, or the end behind the last one.
const BROKEN = {
    3: "The bytes ran out in block",
    4: "The scan breaks a rule of the format at block",
    10: "A 255 is followed by neither 0 nor the end in block",
    11: "No code of the table matches in block",
};
const CUT = "It was cut: copy it again from the camera.";
const DAMAGED = "Copy it again from the camera; a file that stays so is damaged, or what wrote it is faulty, and cannot be trusted.";

// A place in a scan is never 0: with 0 no scan broke.
function refusalOf({number, block, place}, size) {
    if (!place) return "Refused (" + number + "). " + REFUSALS[number];
    const begins = number === 4 ? "whose reading began" : "which begins";
    return "Refused (" + number + "). " + BROKEN[number] + " " + counted(block) + ", " + begins + " at byte " + counted(place) + " of " +
        counted(size) + ". " + (number === 3 ? CUT : DAMAGED);
}

// What went wrong beside the library, by the name of the fault.
const UNREAD = "It cannot be read: a folder, or a file that was moved or changed. Choose it again; of a folder, the photographs in it.";
const FAULTS = {
    NotReadableError: UNREAD,
    NotFoundError: UNREAD,
    RangeError: "There is not enough memory for this photograph. Close other pages, or use the command ./tillsparrow.",
    CompileError: "This browser cannot run the page's WebAssembly module. A newer browser is needed, of 2023 or later.",
    ReferenceError: "This browser lacks what the page needs. A newer browser is needed, of 2023 or later.",
};
const faultOf = ({fault, message}) => FAULTS[fault] ?? "The page failed: " + (message || fault) + ".";

const SAMPLINGS = {"1x1": "4:4:4", "2x1": "4:2:2", "1x2": "4:4:0", "2x2": "4:2:0", "4x1": "4:1:1", "4x2": "4:1:0"};
const CHANNELS = {1: "grey", 3: "red, green, blue"};
const BESIDE = "as they are coded, each shown in grey, side by side";

// What is said of a picture that is shown.
function readOf({width, height, channels}, beside) {
    const read = "Read: " + counted(width) + " × " + counted(height) + " pixels.";
    return beside === 1 ? read : read + " Its " + channels + " channels stand side by side, each in grey, as they are coded.";
}

const largest = numbers => numbers.reduce((one, other) => one > other ? one : other);

// How many pixels across and down share a colour, where that is a whole number: the second and third of three channels have the same
// factors, and these divide the first one's.
function sharing(across, down) {
    const same = across[1] === across[2] && down[1] === down[2], whole = !(across[0] % across[1] || down[0] % down[1]);
    return same && whole ? [across[0] / across[1], down[0] / down[1]] : null;
}

function sharedBy([hs, vs]) {
    if (hs * vs === 1n) return "4:4:4, every pixel has its own colour";
    const name = SAMPLINGS[hs + "x" + vs], halved = hs === 1n ? "down" : vs === 1n ? "across" : "both ways";
    const how = hs * vs === 2n || hs === 2n && vs === 2n ? ", halved " + halved : "";
    return (name ? name + ", " : "") + "one colour for " + hs + " × " + vs + " pixels" + how;
}

// The factors of each channel, and what they come to.
function samplingOf({channels, across, down}) {
    if (channels === 1n) return "every pixel has its own sample";
    const factors = across.map((each, i) => each + "x" + down[i]).slice(0, Number(channels));
    const shared = channels === 3n && sharing(across, down), alike = new Set(factors).size === 1;
    return factors.join(", ") + (shared ? ": " + sharedBy(shared) : alike ? ": every pixel has its own samples" : "");
}

// The record in words, a line each: what it is, what the file has.
function wordsOf(found, size) {
    const {width, height, channels, across, down, interval, blocks} = found;
    const unit = 8n * largest(across) + " × " + 8n * largest(down);
    return [
        ["Size", counted(width) + " × " + counted(height) + " pixels"],
        ["File", counted(size) + " bytes, baseline JPEG"],
        ["Channels", channels + ": " + (CHANNELS[channels] ?? BESIDE)],
        ["Sampling", samplingOf(found)],
        ["Restarts", interval ? "every " + (interval === 1n ? "unit" : counted(interval) + " units") + " of " + unit + " pixels" : "none"],
        ["Blocks", counted(blocks) + " of 8 × 8 samples"],
    ];
}

// A note is bytes. They are read as UTF-8 where they are that, and what cannot be seen, or would turn the text, is shown by its number.
function noteOf(bytes) {
    let text;
    try {
        text = new TextDecoder("utf-8", {fatal: true, ignoreBOM: true}).decode(bytes);
    } catch {
        return Array.from(bytes, byte => byte === 10 || byte > 31 && byte < 127 ? String.fromCharCode(byte)
            : "\\x" + byte.toString(16).padStart(2, "0")).join("");
    }
    return text.replace(/[^\P{C}\n]|[\u2028\u2029]/gu, sign => "\\u{" + sign.codePointAt(0).toString(16) + "}");
}
