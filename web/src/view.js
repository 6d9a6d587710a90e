// The picture on its stage: fitted, zoomed, moved, and one pixel of it marked. `told` is called with the mark's place.
const CLOSEST = 64, NEAR = 9, SLOP = 4;

class View {
    constructor(stage, canvas, mark, told) {
        Object.assign(this, {stage, canvas, mark, told, width: 0, height: 0, fitted: true, pointers: new Map()});
        stage.addEventListener("wheel", event => this.wheel(event), {passive: false});
        stage.addEventListener("pointerdown", event => this.press(event));
        stage.addEventListener("pointermove", event => this.move(event));
        for (const kind of ["pointerup", "pointercancel"]) stage.addEventListener(kind, event => this.release(event));
        stage.addEventListener("keydown", event => this.key(event));
        new ResizeObserver(() => this.place()).observe(stage);
    }

    // The pixels are kept as they came: a browser may change what it reads back from a canvas. Says whether the canvas took them.
    show(pixels, width, height) {
        const same = width === this.width && height === this.height;
        Object.assign(this, {pixels, width, height});
        Object.assign(this.canvas, {width, height});
        const context = this.canvas.getContext("2d", {alpha: false});
        context?.putImageData(new ImageData(pixels, width, height), 0, 0);
        // two photographs of one size are compared at one place, so that stays
        if (!same) Object.assign(this, {fitted: true, at: undefined});
        this.canvas.hidden = false;
        this.place();
        this.point(this.at);
        return Boolean(context);
    }

    // Until the next picture comes there is none, and no pixel to point at.
    blank() {
        this.pixels = undefined;
        this.canvas.hidden = this.mark.hidden = true;
        this.told(null, false);
    }

    // ---- scale and place

    get fitting() {
        const scale = Math.min(this.stage.clientWidth / this.width, this.stage.clientHeight / this.height);
        return Math.min(CLOSEST, scale > 1 ? Math.floor(scale) : scale);
    }

    // Brings scale and place within bounds, and shows them: a picture that is smaller than the stage lies in its middle.
    place() {
        const {clientWidth, clientHeight} = this.stage;
        if (!this.pixels || !clientWidth) return;
        if (this.fitted) this.scale = this.fitting;
        const bound = (start, room, length) => length < room ? (room - length) / 2 : Math.min(0, Math.max(room - length, start));
        this.x = Math.round(bound(this.x ?? 0, clientWidth, this.width * this.scale));
        this.y = Math.round(bound(this.y ?? 0, clientHeight, this.height * this.scale));
        this.canvas.style.transform = `translate(${this.x}px, ${this.y}px) scale(${this.scale})`;
        this.canvas.classList.toggle("close", this.scale >= 1);
        this.frame();
        this.zoomed?.(this.scale);
    }

    // Zooms so that what lies under a place of the stage stays there.
    zoom(scale, x = this.stage.clientWidth / 2, y = this.stage.clientHeight / 2) {
        if (!this.pixels) return;
        const next = Math.min(CLOSEST, Math.max(Math.min(this.fitting, 1) / 2, scale)), ratio = next / this.scale;
        Object.assign(this, {fitted: false, scale: next, x: x - (x - this.x) * ratio, y: y - (y - this.y) * ratio});
        this.place();
    }

    // To the next power of two, about the marked pixel where it is seen.
    step(direction) {
        const level = Math.log2(this.scale), near = 1e-6;
        const scale = 2 ** (direction > 0 ? Math.floor(level + near) + 1 : Math.ceil(level - near) - 1);
        this.zoom(scale, ...this.middle());
    }

    // 100 %: a pixel of the picture for one of the page.
    natural() {
        this.zoom(1, ...this.middle());
    }

    fit() {
        this.fitted = true;
        this.place();
    }

    middle() {
        if (!this.at) return [];
        const x = this.x + (this.at.x + .5) * this.scale, y = this.y + (this.at.y + .5) * this.scale;
        return x >= 0 && y >= 0 && x < this.stage.clientWidth && y < this.stage.clientHeight ? [x, y] : [];
    }

    // ---- the marked pixel

    // Marks a pixel, or none.
    point(at, byKey = false) {
        this.at = at;
        this.frame();
        if (!at) return this.told(null, byKey);
        this.told({...at, samples: this.samples(at.x, at.y)}, byKey);
    }

    samples(x, y) {
        const place = 4 * (y * this.width + x);
        return this.pixels.subarray(place, place + 3);
    }

    frame() {
        this.mark.hidden = !this.at;
        if (!this.at) return;
        const side = Math.max(NEAR, this.scale), off = (side - this.scale) / 2;
        this.mark.style.width = this.mark.style.height = side + "px";
        this.mark.style.transform = `translate(${this.x + this.at.x * this.scale - off}px, ${this.y + this.at.y * this.scale - off}px)`;
    }

    // Marks the pixel under a place of the stage, if there is one.
    hover(x, y) {
        const at = {x: Math.floor((x - this.x) / this.scale), y: Math.floor((y - this.y) / this.scale)};
        if (this.pixels && at.x >= 0 && at.y >= 0 && at.x < this.width && at.y < this.height) this.point(at);
    }

    // Moves the mark, and the picture with it where it would leave the stage.
    walk(dx, dy) {
        if (!this.pixels) return;
        const {clientWidth, clientHeight} = this.stage, within = (value, count) => Math.min(count - 1, Math.max(0, value));
        const from = this.at ?? {x: Math.floor(this.width / 2) - dx, y: Math.floor(this.height / 2) - dy};
        const at = {x: within(from.x + dx, this.width), y: within(from.y + dy, this.height)};
        const shift = (start, index, room) => {
            const low = start + index * this.scale, high = low + this.scale;
            return low < 0 ? start - low : high > room ? start - (high - room) : start;
        };
        Object.assign(this, {x: shift(this.x, at.x, clientWidth), y: shift(this.y, at.y, clientHeight)});
        this.place();
        this.point(at, true);
    }

    // ---- wheel, pointers and keys

    spot(event) {
        const {left, top} = this.stage.getBoundingClientRect();
        return {x: event.clientX - left - this.stage.clientLeft, y: event.clientY - top - this.stage.clientTop};
    }

    wheel(event) {
        event.preventDefault();
        const {x, y} = this.spot(event), lines = event.deltaMode ? 16 : 1;
        this.zoom(this.scale * Math.exp(-event.deltaY * lines * (event.ctrlKey ? .01 : .002)), x, y);
        this.hover(x, y);
    }

    press(event) {
        if (event.button) return;
        this.stage.setPointerCapture(event.pointerId);
        this.pointers.set(event.pointerId, this.spot(event));
        this.pressed = this.pointers.size === 1 ? this.spot(event) : null;
    }

    // One pointer that is down moves the picture, two also zoom it; one that is up marks a pixel.
    move(event) {
        const to = this.spot(event), from = this.pointers.get(event.pointerId);
        if (!from) return this.hover(to.x, to.y);
        if (this.pressed && Math.hypot(to.x - this.pressed.x, to.y - this.pressed.y) < SLOP) return;
        this.pressed = null;
        this.pointers.set(event.pointerId, to);
        const other = [...this.pointers].find(([id]) => id !== event.pointerId)?.[1];
        const share = other ? .5 : 1;
        Object.assign(this, {x: this.x + (to.x - from.x) * share, y: this.y + (to.y - from.y) * share});
        if (!other) return this.place();
        const ratio = Math.hypot(to.x - other.x, to.y - other.y) / Math.max(1, Math.hypot(from.x - other.x, from.y - other.y));
        this.zoom(this.scale * ratio, (to.x + other.x) / 2, (to.y + other.y) / 2);
    }

    // A press that did not move is a click, or a tap: it marks the pixel under it.
    release(event) {
        const {x, y} = this.spot(event);
        if (this.pointers.delete(event.pointerId) && this.pressed && event.type === "pointerup") this.hover(x, y);
        this.pressed = null;
    }

    key(event) {
        const step = event.shiftKey ? 10 : 1;
        const way = {ArrowLeft: [-step, 0], ArrowRight: [step, 0], ArrowUp: [0, -step], ArrowDown: [0, step]}[event.key];
        if (!way || event.ctrlKey || event.altKey || event.metaKey) return;
        event.preventDefault();
        this.walk(...way);
    }
}
