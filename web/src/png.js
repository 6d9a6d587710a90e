// A PNG file that holds just these samples: grey, or red, green and blue, 8 bits each. No chunk says how they should look, so that no
// program has a reason to change them. Each row is written as what is left of it behind PNG's own guess (Paeth's), which packs well.
const CRCS = Uint32Array.from({length: 256}, (_, n) => {
    for (let bit = 0; bit < 8; bit++) n = n & 1 ? 0xedb88320 ^ n >>> 1 : n >>> 1;
    return n;
});

function chunk(name, body) {
    const bytes = new Uint8Array(body.length + 12), view = new DataView(bytes.buffer), end = body.length + 8;
    view.setUint32(0, body.length);
    for (let i = 0; i < 4; i++) bytes[4 + i] = name.charCodeAt(i);
    bytes.set(body, 8);
    let crc = -1;
    for (let i = 4; i < end; i++) crc = CRCS[(crc ^ bytes[i]) & 255] ^ crc >>> 8;
    view.setUint32(end, ~crc);
    return bytes;
}

function guess(left, up, corner) {
    const l = Math.abs(up - corner), u = Math.abs(left - corner), c = Math.abs(left + up - 2 * corner);
    return l <= u && l <= c ? left : u <= c ? up : corner;
}

function filtered(picture, width, height, channels) {
    const row = width * channels, rows = new Uint8Array(height * (row + 1));
    for (let y = 0, from = 0, to = 0; y < height; y++) {
        rows[to++] = 4;
        for (let x = 0; x < row; x++, from++) {
            const left = x < channels ? 0 : picture[from - channels], up = y ? picture[from - row] : 0;
            rows[to++] = picture[from] - guess(left, up, x < channels || !y ? 0 : picture[from - row - channels]);
        }
    }
    return rows;
}

async function packed(bytes) {
    const stream = new Blob([bytes]).stream().pipeThrough(new CompressionStream("deflate"));
    return new Uint8Array(await new Response(stream).arrayBuffer());
}

async function pngOf(picture, width, height, channels) {
    const head = new DataView(new ArrayBuffer(13));
    head.setUint32(0, width);
    head.setUint32(4, height);
    head.setUint8(8, 8);
    head.setUint8(9, channels === 1 ? 0 : 2);
    const body = await packed(filtered(picture, width, height, channels));
    const signature = Uint8Array.of(137, 80, 78, 71, 13, 10, 26, 10);
    return new Blob([signature, chunk("IHDR", new Uint8Array(head.buffer)), chunk("IDAT", body), chunk("IEND", [])], {type: "image/png"});
}
