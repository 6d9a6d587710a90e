// The calls of the proved library, on its WebAssembly module. Lengths, limits, budgets and answers have 64 bits and are BigInts; a place
// in the module's memory has 32 and is a Number. What the module asks of its caller is kept here: a place has as many bytes as its
// length says, and no two parts overlap. Above the module's own memory lie the answer, the record, the file, and what a call writes.
const MOST = 2n ** 64n - 1n;
// The record's fields in their order, and how many numbers each has.
const FIELDS = {width: 1, height: 1, channels: 1, across: 4, down: 4, ids: 4, qids: 4, dcids: 4, acids: 4, quants: 4, dcs: 4, acs: 4,
    interval: 1, start: 1, blocks: 1, scratch: 1, output: 1, work: 1, colour: 1};
const NUMBERS = 46, RECORD = NUMBERS * 8, PAGE = 65536, COMMENT = 254;
// What stands at the front of the answers of inspect, settle and has_comment: the number, what is left of the budget, and where a scan
// broke: the block, and the place in the file. Where none broke, both are 0.
const FRONT = 4;
const aligned = place => Math.ceil(place / 16) * 16;

class Library {
    // The module is compiled already.
    static async of(module) {
        return new Library((await WebAssembly.instantiate(module, {})).exports);
    }

    constructor(calls) {
        this.calls = calls;
        this.answerAt = aligned(calls.__heap_base.value);
        this.recordAt = this.answerAt + aligned(8 * FRONT + RECORD);
        this.fileAt = this.recordAt + aligned(RECORD);
    }

    // How many bytes the module's memory has; it never shrinks.
    get size() {
        return this.calls.memory.buffer.byteLength;
    }

    // Sees to room up to this place. Where there is none, a RangeError is thrown and all is as it was.
    reserve(end) {
        const more = Math.ceil((end - this.size) / PAGE);
        if (more > 0) this.calls.memory.grow(more);
    }

    // A part of the memory. It is good until the memory grows.
    bytes(at, length) {
        return new Uint8Array(this.calls.memory.buffer, at, length);
    }

    // The file of which the next calls speak.
    lend(file) {
        this.behind = aligned(this.fileAt + file.length + 1);
        this.reserve(this.behind);
        this.bytes(this.fileAt, file.length).set(file);
        this.length = file.length;
    }

    // The first `count` numbers of what a call answers: every one writes its answer to a place that it is given first.
    call(name, count, ...rest) {
        this.calls["tillsparrow_" + name](this.answerAt, this.fileAt, BigInt(this.length), ...rest);
        return [...new BigUint64Array(this.calls.memory.buffer, this.answerAt, count)];
    }

    inspect({colour = true, input = MOST, side = MOST, output = MOST, budget = MOST} = {}) {
        const [number, left, block, place, ...numbers] =
            this.call("inspect", FRONT + NUMBERS, colour ? 1 : 0, input, side, output, budget);
        const found = {};
        for (const [field, count] of Object.entries(FIELDS)) found[field] = count > 1 ? numbers.splice(0, count) : numbers.shift();
        return {number: Number(number), left, block, place, found};
    }

    decode(found, budget = MOST) {
        const outputAt = this.behind, length = Number(found.output), room = Number(found.scratch);
        const scratchAt = aligned(outputAt + length + 1);
        this.reserve(scratchAt + room + 1);
        new BigUint64Array(this.calls.memory.buffer, this.recordAt, NUMBERS).set(Object.keys(FIELDS).flatMap(field => found[field]));
        const [number, left] = this.call("decode", 2, this.recordAt, outputAt, found.output, scratchAt, found.scratch, budget);
        return {number: Number(number), left, picture: this.bytes(outputAt, length), scratch: this.bytes(scratchAt, room)};
    }

    settle(room, {input = MOST, side = MOST, output = MOST, budget = MOST} = {}) {
        this.reserve(this.behind + room + 1);
        const [number, left, block, place, length] =
            this.call("settle", FRONT + 1, input, side, output, budget, this.behind, BigInt(room));
        return {number: Number(number), left, block, place, length, settled: this.bytes(this.behind, number ? 0 : Number(length))};
    }

    // A settled file is seldom longer than the file; where it is, the refusal says how long.
    settled(limits) {
        const made = this.settle(this.length, limits);
        return made.number === 7 ? this.settle(Number(made.length), limits) : made;
    }

    comment(i) {
        const [at, length] = this.call("comment", 2, BigInt(i));
        return {at, length, text: this.bytes(this.fileAt + Number(at), Number(length)).slice()};
    }

    hasComment(i, {input = MOST, side = MOST, output = MOST, budget = MOST} = {}) {
        const [number, left, block, place, there] = this.call("has_comment", FRONT + 1, BigInt(i), input, side, output, budget);
        return {number: Number(number), left, block, place, there};
    }

    // The texts of all comments of a file that inspect accepted, in one walk over its header: segments, each behind its marker, up to
    // the first coded byte. `comment` would read the file once for each.
    comments(found) {
        const head = this.bytes(this.fileAt, Number(found.start)), texts = [];
        for (let at = 2, end; at < head.length; at = end) {
            while (head[at + 1] === 255) at++;
            end = at + 2 + head[at + 2] * 256 + head[at + 3];
            if (head[at + 1] === COMMENT) texts.push(head.slice(at + 4, end));
        }
        return texts;
    }
}
