// The page: photographs come in, are read beside it one after another, and are shown, listed and saved. Of the pictures only the one
// that is shown is kept; of the others the answer.
const $ = id => document.getElementById(id);
const photos = [], saves = [];
let current = -1, shown, busy = false;

// ---- the worker, which has one job at a time

const source = URL.createObjectURL(new Blob(['"use strict";(' + inWorker + ")()"], {type: "text/javascript"}));
const bytes = Uint8Array.from(atob(MODULE), sign => sign.charCodeAt(0));
let worker, answered;

function hire() {
    worker = new Worker(source);
    worker.onmessage = ({data}) => answered(data);
    worker.onerror = event => {
        event.preventDefault();
        dismiss();
        answered?.({fault: "Error", message: event.message || "its worker did not start"});
    };
    worker.postMessage({module: bytes});
}

function dismiss() {
    worker?.terminate();
    worker = undefined;
}

// The worker's answer. One that failed may have lost its memory, so the next job has another.
async function ask(job) {
    const answer = await new Promise(resolve => {
        answered = resolve;
        if (!worker) hire();
        worker.postMessage(job);
    }).catch(fault => ({fault: fault.name, message: fault.message}));
    if (answer.fault) dismiss();
    return answer;
}

// ---- what is to be done next: a file to save, the photograph that is looked at, one that has no answer yet

function next() {
    const photo = photos[current], unread = photos.find(each => !each.answer);
    if (saves.length) return saves.shift();
    if (photo && shown !== photo) return () => look(photo, true);
    return unread && (() => look(unread, false));
}

async function work() {
    if (busy) return;
    busy = true;
    for (let job; (job = next());) await job().catch(fault => {
        $("said").textContent = faultOf({fault: fault.name, message: fault.message});
    });
    busy = false;
    $("photo").ariaBusy = "false";
}

async function look(photo, wanted) {
    const refused = photo.answer && (photo.answer.number || photo.answer.fault);
    const answer = refused ? photo.answer : await ask({work: "look", file: photo.file, shown: wanted});
    const {pixels, thumb, ...rest} = answer;
    photo.answer = rest;
    list(photo, thumb);
    if (wanted && photo === photos[current]) show(photo, pixels);
}

// ---- photographs come in

function add(files) {
    const first = photos.length;
    for (const file of files) photos.push({file, button: item(photos.length)});
    if (photos.length === first) return;
    document.body.classList.add("filled");
    document.body.classList.toggle("row", photos.length > 1);
    for (const photo of photos.slice(first)) {
        photo.button.querySelector(".called").textContent = photo.button.title = photo.file.name;
        $("strip").append(photo.button.parentNode);
    }
    select(first);
}

function item(index) {
    const line = document.createElement("li"), button = document.createElement("button");
    for (const [kind, name] of [["canvas", "thumb"], ["span", "called"], ["span", "verdict"]]) {
        button.append(Object.assign(document.createElement(kind), {className: name}));
    }
    Object.assign(button.firstChild, {width: 1, height: 1, ariaHidden: true});
    button.addEventListener("click", () => select(index));
    line.append(button);
    return button;
}

// What the list says of a photograph.
function list({answer, button}, thumb) {
    const bad = answer.fault || answer.number;
    button.classList.toggle("bad", Boolean(bad));
    button.lastChild.textContent = answer.fault ? "not read" : bad ? "refused " + answer.number
        : counted(answer.found.width) + " × " + counted(answer.found.height);
    if (!thumb) return;
    Object.assign(button.firstChild, {width: thumb.width, height: thumb.height});
    button.firstChild.getContext("2d")?.drawImage(thumb, 0, 0);
    thumb.close();
}

// ---- one of them is looked at

function select(index) {
    if (index < 0 || index >= photos.length) return;
    current = index;
    const photo = photos[index];
    if (photo.answer?.fault) photo.answer = shown = undefined; // it may go better now
    photos.forEach(({button}, i) => {
        button.tabIndex = i === index ? 0 : -1;
        button.ariaCurrent = i === index ? "true" : null;
    });
    photo.button.scrollIntoView({block: "nearest", inline: "nearest"});
    document.title = photo.file.name + " - Tillsparrow";
    $("name").textContent = photo.file.name;
    $("count").textContent = index + 1 + " of " + photos.length;
    $("previous").disabled = index === 0;
    $("next").disabled = index === photos.length - 1;
    if (shown !== photo) clear();
    $("photo").hidden = false;
    $("photo").ariaBusy = "true";
    work();
}

// Nothing of one photograph stays under the name of another.
function clear() {
    shown = undefined;
    view.blank();
    for (const id of ["notes", "facts", "record"]) $(id).replaceChildren();
    $("noted").hidden = $("refused").hidden = true;
    $("said").textContent = "Reading …";
}

function show(photo, pixels) {
    const {fault, found, notes, beside} = photo.answer;
    shown = photo;
    for (const id of ["view", "about"]) $(id).hidden = !pixels;
    $("refused").hidden = Boolean(pixels);
    $("said").textContent = "";
    if (!pixels) {
        $("refused").textContent = fault ? faultOf(photo.answer) : refusalOf(photo.answer, photo.file.size) + " No picture is shown.";
        return;
    }
    describe(found, notes, photo.file.size);
    const drawn = view.show(pixels, Number(found.width) * beside, Number(found.height));
    $("said").textContent = drawn ? readOf(found, beside) : "This browser cannot draw so large a picture. It can still be saved.";
}

function describe(found, notes, size) {
    const lines = (pairs, heading, text) => pairs.flatMap(pair => [heading, text].map((kind, i) =>
        Object.assign(document.createElement(kind), {textContent: String(pair[i])})));
    $("notes").replaceChildren(...notes.map(note => Object.assign(document.createElement("li"), {textContent: noteOf(note)})));
    $("noted").hidden = !notes.length;
    $("facts").replaceChildren(...lines(wordsOf(found, size), "dt", "dd"));
    $("record").replaceChildren(...lines(Object.entries(found).map(([name, value]) => [name, [value].flat().join(", ")]), "dt", "dd"));
}

// ---- the pixel that is pointed at

const view = new View($("stage"), $("picture"), $("mark"), (pixel, byKey) => {
    $("pixel").ariaLive = byKey ? "polite" : "off";
    $("swatch").hidden = !pixel;
    if (!pixel) return $("values").replaceChildren("Point at a pixel, or tap it, to see its samples.");
    const [red, green, blue] = pixel.samples;
    $("swatch").style.background = `rgb(${red}, ${green}, ${blue})`;
    $("values").textContent = valuesOf(pixel, shown.answer);
});

// The samples of a pixel. Of channels that stand side by side x counts in each from its own left side.
function valuesOf({x, y, samples: [red, green, blue]}, {found, beside}) {
    if (found.channels === 1n) return `x ${x}, y ${y}: grey ${red}`;
    if (found.channels === 3n) return `x ${x}, y ${y}: red ${red}, green ${green}, blue ${blue}`;
    const width = Number(found.width), own = x % width;
    const all = Array.from({length: beside}, (_, channel) => view.samples(channel * width + own, y)[0]);
    return `x ${own}, y ${y}, channel ${Math.floor(x / width) + 1}: ${red}; all channels: ${all.join(", ")}`;
}
view.zoomed = scale => {
    $("scale").textContent = (scale < .1 ? (100 * scale).toFixed(1) : Math.round(100 * scale)) + " %";
};

// ---- saving

function save(kind, ending) {
    const {file} = photos[current], name = file.name.replace(/\.jpe?g$/i, "") + ending;
    $("said").textContent = "Writing " + name + " …";
    $("photo").ariaBusy = "true";
    saves.push(async () => {
        const {blob, ...rest} = await ask({work: kind, file});
        if (!blob) {
            $("said").textContent = name + " is not saved. " + (rest.fault ? faultOf(rest) : refusalOf(rest, file.size));
            return;
        }
        const link = Object.assign(document.createElement("a"), {href: URL.createObjectURL(blob), download: name});
        link.click();
        setTimeout(() => URL.revokeObjectURL(link.href), 60000);
        $("said").textContent = name + " is saved: " + counted(blob.size) + " bytes.";
    });
    work();
}

// ---- buttons, keys, files that are chosen or dropped

const ACTIONS = {
    previous: () => select(current - 1), next: () => select(current + 1),
    closer: () => view.step(1), farther: () => view.step(-1), fit: () => view.fit(), natural: () => view.natural(),
    png: () => save("png", ".png"), settle: () => save("settle", ".settled.jpg"),
};
for (const [id, act] of Object.entries(ACTIONS)) $(id).addEventListener("click", act);

const KEYS = {"+": "closer", "=": "closer", "-": "farther", "0": "fit", "1": "natural", n: "next", p: "previous",
    PageDown: "next", PageUp: "previous"};
addEventListener("keydown", event => {
    if (event.ctrlKey || event.altKey || event.metaKey || !photos.length) return;
    const inStrip = $("strip").contains(event.target) && {ArrowRight: "next", ArrowLeft: "previous"}[event.key];
    const id = inStrip || KEYS[event.key];
    if (!id || event.key.startsWith("Page") && event.target !== $("stage")) return;
    event.preventDefault();
    ACTIONS[id]();
    if (inStrip) photos[current].button.focus();
});

$("choose").addEventListener("change", ({target}) => {
    add([...target.files]);
    target.value = ""; // so that the same file can be chosen again
});
for (const kind of ["dragenter", "dragover"]) addEventListener(kind, event => {
    event.preventDefault();
    document.body.classList.add("over");
});
addEventListener("dragleave", event => event.relatedTarget || document.body.classList.remove("over"));
addEventListener("drop", event => {
    event.preventDefault();
    document.body.classList.remove("over");
    add([...event.dataTransfer.files]);
});
view.point();
hire();
