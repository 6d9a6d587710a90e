// All that the five calls answer for one file, by part: what native.py gives in the same order. Buffers hold a pattern before each call,
// so that a byte too many, or one on a refusal, is seen. The limits come as decimal text, since JSON has no numbers of 64 bits.
const PATTERN = 0xa5, COMMENTS = 3;

async function digestOf(bytes) {
    const sum = new Uint8Array(await crypto.subtle.digest("SHA-256", bytes));
    return Array.from(sum, byte => byte.toString(16).padStart(2, "0")).join("");
}

function fromBase64(text) {
    return Uint8Array.from(atob(text), sign => sign.charCodeAt(0));
}

async function answersOf(library, file, asked) {
    const given = {...asked};
    for (const name of ["input", "side", "output", "budget"]) given[name] = BigInt(asked[name]);
    const parts = {}, keep = async (name, bytes) => parts[name] = await digestOf(bytes);
    const answer = (name, length) => keep(name, library.bytes(library.answerAt, length));
    const paint = room => {
        library.reserve(library.behind + room);
        library.bytes(library.behind, library.size - library.behind).fill(PATTERN);
    };
    const fronts = [], front = ({number, left, block, place}) => fronts.push([number, left, block, place].join(" "));
    library.lend(file);
    const seen = library.inspect(given), {number, found} = seen;
    await answer("inspect", 400);
    front(seen);
    paint(Number(found.output) + Number(found.scratch) + 64);
    const {picture, scratch} = library.decode(found, given.budget);
    await answer("decode", 16);
    await keep("picture", picture);
    await keep("scratch", scratch);
    paint(given.room + 1);
    front(library.settle(given.room, given));
    await answer("settle", 40);
    await keep("settled", library.bytes(library.behind, given.room));
    for (let i = 0; i < COMMENTS; i++) {
        library.comment(i);
        await answer("comment " + i, 16);
        front(library.hasComment(i, given));
        await answer("has_comment " + i, 40);
    }
    parts.fronts = fronts.join("; ");
    parts.notes = number ? "" : notesOf(library, found);
    return parts;
}

// How many comments a walk over the header finds, where they are those of the calls.
function notesOf(library, found) {
    const walked = library.comments(found).map(String);
    let count = 0;
    while (library.hasComment(count).there) count++;
    const called = Array.from({length: count}, (_, i) => String(library.comment(i).text));
    if (called.join("\n") !== walked.join("\n")) throw new Error("the walk over the header finds other comments than the calls");
    return String(walked.length);
}

// What library.js makes of answers that are written here: 3, and behind it 102, 103 and so on, so that each number tells its place. And
// how many bytes it keeps for an answer and for a record.
function layoutOf() {
    const memory = new WebAssembly.Memory({initial: 2});
    const answering = count => at => new BigUint64Array(memory.buffer, at, count).set([3n, ...Array.from({length: count - 1}, (_, i) => 102n + BigInt(i))]);
    const library = new Library({memory, __heap_base: {value: 1001}, tillsparrow_inspect: answering(50),
        tillsparrow_settle: answering(5), tillsparrow_has_comment: answering(5)});
    library.lend(new Uint8Array(9));
    const {settled: bytes, ...settled} = library.settle(7), inspected = library.inspect(), presence = library.hasComment(0);
    const told = JSON.stringify({inspected, settled, presence}, (_, value) => typeof value === "bigint" ? Number(value) : value);
    return {...JSON.parse(told), answer: library.recordAt - library.answerAt, record: library.fileAt - library.recordAt,
        settled_bytes: bytes.length};
}
