// What goes on beside the page: a file is read, and its answer sent back. One job at a time; each reads the file anew, so that nothing
// is kept between two. The first message holds the module, packed.

// Above these the library refuses: what a page can hold, and a canvas can show.
const LIMITS = {input: 256n << 20n, side: 16384n, output: 768n << 20n};
// Above these channels are not shown side by side, since not every browser has such a canvas: pixels across, and in all.
const ROW = {across: 32767n, output: 256n << 20n};
// A memory that has grown beyond this is given back behind the job.
const KEPT = 256 << 20;
const TOO_LONG = {number: 1, block: 0n, place: 0n}, TOO_LARGE = {...TOO_LONG, number: 6};
const THUMB = {width: 96, height: 64};
let module, library;

async function unpacked(bytes) {
    const stream = new Blob([bytes]).stream().pipeThrough(new DecompressionStream("deflate"));
    return WebAssembly.compile(await new Response(stream).arrayBuffer());
}

// Lends the file's bytes to the library, and says whether it did. One above the limit is not read: the library's own rule, and its number.
async function lend(file) {
    if (BigInt(file.size) > LIMITS.input) return false;
    const bytes = new Uint8Array(await file.arrayBuffer());
    library ??= await Library.of(await module);
    library.lend(bytes);
    return true;
}

// How many pictures stand side by side: one that is grey, or red, green and blue; else one in grey for each channel.
const besideOf = ({channels}) => channels === 1n || channels === 3n ? 1 : Number(channels);

async function decode(file) {
    if (!await lend(file)) return TOO_LONG;
    const {number, block, place, found} = library.inspect(LIMITS);
    if (number) return {number, block, place};
    const beside = besideOf(found);
    if (beside > 1 && (found.width * found.channels > ROW.across || found.output > ROW.output)) return TOO_LARGE;
    const notes = library.comments(found), drawn = library.decode(found);
    // decode names no block
    return {number: drawn.number, block: 0n, place: 0n, found, notes, ...shownOf(drawn.picture, found, beside), beside};
}

// What is shown and saved. Two and four channels come as they are coded, interleaved, and become one grey picture: the first channel at
// the left, and the others beside it.
function shownOf(samples, found, beside) {
    const width = Number(found.width), height = Number(found.height);
    if (beside === 1) return {picture: samples, width, height, channels: Number(found.channels)};
    const picture = new Uint8Array(samples.length), row = width * beside;
    for (let channel = 0; channel < beside; channel++) for (let y = 0; y < height; y++) {
        const start = y * row + channel * width;
        for (let x = 0, from = y * row + channel; x < width; x++, from += beside) picture[start + x] = samples[from];
    }
    return {picture, width: row, height, channels: 1};
}

// Four bytes for each pixel, as a canvas has them, opaque; grey three times over.
function colours(picture, channels) {
    const words = new Uint32Array(picture.length / channels);
    if (channels === 1) for (let i = 0; i < words.length; i++) words[i] = 0xff000000 | picture[i] * 0x010101;
    else for (let i = 0, at = 0; i < words.length; i++, at += 3) {
        words[i] = 0xff000000 | picture[at + 2] << 16 | picture[at + 1] << 8 | picture[at];
    }
    return new Uint8ClampedArray(words.buffer);
}

// A small picture for the list; the list goes without where the browser makes none.
function thumbnail(pixels, width, height) {
    const scale = Math.min(1, THUMB.width / width, THUMB.height / height), side = whole => Math.max(1, Math.round(whole * scale));
    return createImageBitmap(new ImageData(pixels, width, height),
        {resizeWidth: side(width), resizeHeight: side(height), resizeQuality: "medium"}).catch(() => null);
}

const JOBS = {
    async look({file, shown}) {
        const {number, block, place, found, notes, beside, picture, width, height, channels} = await decode(file);
        if (number) return {number, block, place};
        const pixels = colours(picture, channels), thumb = await thumbnail(pixels, width, height);
        return {number, found, notes, beside, thumb, pixels: shown ? pixels : null};
    },
    async png({file}) {
        const {number, block, place, picture, width, height, channels} = await decode(file);
        return number ? {number, block, place} : {number, blob: await pngOf(picture, width, height, channels)};
    },
    async settle({file}) {
        if (!await lend(file)) return TOO_LONG;
        const {number, block, place, settled} = library.settled(LIMITS);
        return number ? {number, block, place} : {number, blob: new Blob([settled], {type: "image/jpeg"})};
    },
};

onmessage = async ({data}) => {
    if (data.module) {
        module = unpacked(data.module);
        module.catch(() => {}); // told by the first job that wants it
        return;
    }
    try {
        const answer = await JOBS[data.work](data);
        postMessage(answer, [answer.pixels?.buffer, answer.thumb].filter(Boolean));
        if (library?.size > KEPT) library = undefined;
    } catch (fault) {
        postMessage({fault: fault.name, message: fault.message});
    }
};
