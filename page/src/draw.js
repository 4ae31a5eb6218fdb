// The map of a frame, one cell for each 8 bytes, and the tree beside it.
'use strict';

// What a stretch can be: its colour, and its words in the legend.
const LOOKS = {
    header: ['#33475b', 'header'],
    table: ['#8fa3b8', 'slot table'],
    1: ['#2f9e6e', 'Leaf'],
    2: ['#d08a1d', 'Prefix'],
    4: ['#5b8def', 'Node4'],
    5: ['#3b62c9', 'Node16'],
    6: ['#7a4fc4', 'Node48'],
    7: ['#a0379f', 'Node256'],
    8: ['#4b5560', 'EmptyRoot'],
    extent: ['#a9dcc3', 'key and value'],
    freed: ['#d9c9b6', 'freed'],
    dead: ['#e3b4b4', 'dead'],
    free: ['#ffffff', 'never given out'],
    unknown: ['#dddddd', 'not read'],
};
// The order of the legend.
const LEGEND = ['header', 'table', 1, 2, 4, 5, 6, 7, 8, 'extent', 'freed', 'dead', 'free', 'unknown'];
const BROKEN_COLOUR = '#d0101c';
const WAY_COLOUR = '#ffc400';
const MAP_PIXELS = 768;

const lookOf = ({ what, kind }) => (what === 'body' ? LOOKS[kind] : LOOKS[what]);

const columnsFor = (units) => [32, 64, 128].find((columns) => units <= columns * columns) ?? 256;

// What a stretch is, in one line.
function wordsFor(stretch) {
    const bytes = `bytes ${grouped(stretch.from)} to ${grouped(stretch.to - 1)}`;
    const key = stretch.key === undefined ? '' : ` of "${asText(stretch.key)}"`;
    const slot = stretch.slot === undefined ? '' : `, slot ${stretch.slot}`;
    switch (stretch.what) {
        case 'body': return `${KINDS[stretch.kind].name}${slot}: ${bytes}`;
        case 'freed': return `freed ${KINDS[stretch.kind].name}${slot}: ${bytes}`;
        case 'extent': return `key and value${key}${slot}: ${bytes}`;
        default: return `${LOOKS[stretch.what][1]}: ${bytes}`;
    }
}

class FrameMap {
    constructor(canvas) {
        this.canvas = canvas;
        this.stretches = [];
    }

    // Draws the stretches; `marks` are [from, to, colour] on top.
    draw(length, stretches, marks) {
        const units = Math.max(1, Math.ceil(length / 8));
        this.stretches = stretches;
        this.length = length;
        this.columns = columnsFor(units);
        this.cell = Math.max(3, Math.floor(MAP_PIXELS / this.columns));
        this.canvas.width = this.columns * this.cell;
        this.canvas.height = Math.ceil(units / this.columns) * this.cell;
        const pen = this.canvas.getContext('2d');
        pen.fillStyle = '#f0f0f0';
        pen.fillRect(0, 0, this.canvas.width, this.canvas.height);
        for (const stretch of stretches) this.fill(pen, stretch.from, stretch.to, lookOf(stretch)[0], this.cell > 4 ? 1 : 0);
        for (const [from, to, colour] of marks) this.fill(pen, from, to, colour, this.cell > 4 ? 2 : 0);
    }

    fill(pen, from, to, colour, gap) {
        pen.fillStyle = colour;
        for (let unit = Math.floor(from / 8); unit < Math.ceil(to / 8); unit += 1) {
            const [x, y] = [unit % this.columns, Math.floor(unit / this.columns)];
            pen.fillRect(x * this.cell, y * this.cell, this.cell - gap, this.cell - gap);
        }
    }

    // The stretch under a point of the page, or null.
    at(event) {
        const box = this.canvas.getBoundingClientRect();
        const scale = this.canvas.width / box.width;
        const x = Math.floor(((event.clientX - box.left) * scale) / this.cell);
        const y = Math.floor(((event.clientY - box.top) * scale) / this.cell);
        const byte = 8 * (y * this.columns + x);
        return byte < this.length ? this.stretches.find(({ from, to }) => from <= byte && byte < to) ?? null : null;
    }
}

// The tree as nested lines; what is below a line is made when it is opened.
class FrameTree {
    constructor(place, chosen) {
        this.place = place;
        this.chosen = chosen;
    }

    draw(reading) {
        this.reading = reading;
        this.lines = new Map();
        this.place.replaceChildren();
        if (reading.live.has(reading.root)) this.place.append(this.line(reading.live.get(reading.root), ''));
    }

    line(node, byte) {
        const name = KINDS[node.kind].name;
        const text = node.text === undefined ? '' : ` "${asText(node.text)}"`;
        if (node.kind === 1 || node.kind === 8) {
            const leaf = document.createElement('div');
            const key = node.key === undefined ? '' : ` "${asText(node.key)}", ${grouped(node.value.length)} bytes`;
            leaf.className = 'leaf';
            leaf.textContent = `${byte}slot ${node.slot} ${name}${key}`;
            leaf.addEventListener('click', () => this.chosen(node));
            this.lines.set(node.slot, leaf);
            return leaf;
        }
        const part = document.createElement('details');
        const head = document.createElement('summary');
        const many = node.kind === 2 ? '' : `, ${node.children.length} children`;
        head.textContent = `${byte}slot ${node.slot} ${name}${text}${many}`;
        part.append(head);
        part.addEventListener('toggle', () => this.open(node, part), { once: true });
        this.lines.set(node.slot, part);
        return part;
    }

    open(node, part) {
        if (part.dataset.filled === 'yes') return;
        part.dataset.filled = 'yes';
        for (const { byte, slot } of node.children) {
            const child = this.reading.live.get(slot);
            const label = byte === null ? '' : byte === 0 ? 'end → ' : `'${asText([byte])}' → `;
            if (child !== undefined) part.append(this.line(child, label));
        }
    }

    // Opens the way to a slot and marks it.
    show(slots) {
        for (const old of this.place.querySelectorAll('.chosen')) old.classList.remove('chosen');
        for (const slot of slots) {
            const line = this.lines.get(slot);
            if (line === undefined) return;
            if (line.tagName === 'DETAILS') {
                this.open(this.reading.live.get(slot), line);
                line.open = true;
                line.firstChild.classList.add('chosen');
            } else line.classList.add('chosen');
            line.scrollIntoView({ block: 'nearest' });
        }
    }
}
