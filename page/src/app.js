// The page itself: what is opened, shown, changed and saved. Bytes are judged and changed by the proved calls alone (store.js); the reader
// only says where things stand (reader.js).
'use strict';

const MOST_UNDO = 64;
const PAGE_OF_NAMES = 4096;
const MOST_BROKEN_SHOWN = 8;
const VALUE_SHOWN = 4096;

const part = (id) => document.getElementById(id);

const page = { store: null, frame: null, name: '', past: [], reading: null, start: null, way: [], broken: null, before: false };

const map = new FrameMap(part('map'));
const tree = new FrameTree(part('tree'), (node) => choose(node));

function told(call, answer, more = '') {
    part('answer').textContent = `${call}: ${answer}, ${NUMBERS[answer] ?? 'unknown'}${more}`;
}

// Shows an image that was opened, made or changed.
function show() {
    const { frame, store } = page;
    const number = store.check(frame);
    page.reading = readFrame(frame);
    page.way = [];
    page.broken = null;
    part('name').textContent = `${page.name}, ${grouped(frame.length)} bytes`;
    const verdict = part('verdict');
    verdict.className = number === 0 ? 'good' : 'bad';
    // The proved packing by the old rule tells what was good before freed bytes were wiped.
    page.before = number !== 0 && store.packBefore(frame).answer === 0;
    const hint = page.before ? '; it was good before freed bytes were wiped, and Pack packs it once' : '';
    verdict.textContent = number === 0 ? '0: a good frame' : `${number}, ${NUMBERS[number]}${hint}`;
    showBroken(number);
    showNumbers(number);
    drawMap();
    tree.draw(page.reading);
    for (const id of ['pack', 'save', 'first']) part(id).disabled = false;
    part('undo').disabled = page.past.length === 0;
    list(page.start);
}

function showBroken(number) {
    const { broken } = page.reading;
    const shown = number === 2 ? broken.slice(0, MOST_BROKEN_SHOWN) : [];
    part('broken').replaceChildren(...shown.map((one) => {
        const line = document.createElement('li');
        const slot = one.slot === 0 ? '' : `slot ${one.slot}, `;
        line.dataset.rule = one.rule;
        line.textContent = `not kept: ${RULES[one.rule]} (${slot}bytes ${grouped(one.from)} to ${grouped(one.to - 1)})`;
        line.addEventListener('click', () => {
            page.broken = one;
            drawMap();
        });
        return line;
    }));
    if (broken.length > shown.length && shown.length > 0) {
        const line = document.createElement('li');
        line.textContent = `and ${grouped(broken.length - shown.length)} more`;
        part('broken').append(line);
    }
}

function showNumbers(number) {
    const { reading } = page;
    const table = part('numbers');
    table.replaceChildren();
    part('fullness').textContent = '';
    if (reading.F === undefined) return;
    const rows = [['F', 'N', 'D', 'B', 'U', 'R', 'X'], [reading.F, reading.N, reading.D, reading.B, reading.U, reading.R, reading.X]];
    const { counts } = number === 0 ? page.store.info(page.frame) : { counts: null };
    if (counts !== null) {
        const kinds = Object.keys(KINDS);
        rows.push(kinds.map((kind) => `freed ${KINDS[kind].name}`), kinds.map((kind) => counts[5 + Number(kind)]));
    }
    for (const [place, row] of rows.entries()) {
        const line = table.insertRow();
        for (const one of row) {
            const cell = document.createElement(place % 2 === 0 ? 'th' : 'td');
            cell.textContent = typeof one === 'number' ? grouped(one) : one;
            line.append(cell);
        }
    }
    if (counts === null) return;
    const packed = page.store.pack(page.frame);
    const back = packed.answer === 0 ? page.store.info(packed.image).counts : counts;
    part('fullness').textContent = `${grouped(reading.N - reading.U)} slots and ${grouped(reading.F - reading.B)} bytes are left; `
        + `packing would give back ${grouped(counts[2] - back[2])} slots and ${grouped(counts[3] - back[3])} bytes.`;
}

function drawMap() {
    const { reading, frame, way, broken } = page;
    const marks = [];
    for (const slot of way) {
        const { at, kind, extent } = reading.live.get(slot);
        marks.push([entryAt(slot), entryAt(slot) + 4, WAY_COLOUR], [at, at + KINDS[kind].bytes, WAY_COLOUR]);
        if (extent !== undefined) marks.push([extent.from, extent.to, WAY_COLOUR]);
    }
    const wrong = broken ?? (part('verdict').className === 'bad' ? reading.broken[0] : undefined);
    if (wrong !== undefined) marks.push([wrong.from, Math.min(wrong.to, frame.length), BROKEN_COLOUR]);
    map.draw(frame.length, reading.stretches(), marks);
}

// Shows a Leaf's way from the root, in the map and in the tree, and its record.
function choose(node) {
    page.way = page.reading.way(node.slot);
    drawMap();
    tree.show(page.way);
    if (node.key !== undefined) {
        part('key').value = asText(node.key);
        get();
    }
}

function chooseKey(key) {
    const same = (one) => one.key !== undefined && one.key.length === key.length && one.key.every((byte, place) => byte === key[place]);
    const node = [...page.reading.live.values()].find(same);
    if (node !== undefined) choose(node);
}

// ---- names

function list(start) {
    const prefix = asBytes(part('prefix').value);
    const delimiter = asBytes(part('delimiter').value);
    const names = part('names');
    names.replaceChildren();
    part('next').disabled = true;
    if (page.frame === null) return;
    if (prefix === null || delimiter === null || delimiter.length > 1) {
        part('listed').textContent = 'A backslash is written \\\\, any byte \\xNN; a delimiter is one byte.';
        return;
    }
    page.start = start;
    const until = delimiter.length === 1 ? delimiter[0] : null;
    const { answer, entries, more } = page.store.list(page.frame, prefix, start, until, PAGE_OF_NAMES);
    part('listed').textContent = answer === 0
        ? `${grouped(entries.length)} ${entries.length === 1 ? 'name' : 'names'}${more ? ', more remain' : ''}`
        : `list: ${answer}, ${NUMBERS[answer]}`;
    for (const entry of entries) {
        const line = document.createElement('li');
        const group = until !== null && entry.length > prefix.length && entry[entry.length - 1] === until;
        line.textContent = asText(entry);
        line.className = group ? 'group' : 'name';
        line.addEventListener('click', () => {
            if (!group) {
                chooseKey(entry);
                return;
            }
            part('prefix').value = asText(entry);
            list(null);
        });
        names.append(line);
    }
    part('next').disabled = !more;
    page.last = entries[entries.length - 1];
}

// ---- a record

function keyTyped() {
    const key = asBytes(part('key').value);
    if (key === null) part('answer').textContent = 'In a key a backslash is written \\\\, and any byte \\xNN.';
    return key;
}

const formOf = () => document.querySelector('input[name=form]:checked').value;

function valueTyped() {
    if (page.valueFile !== undefined) return page.valueFile;
    const value = formOf() === 'hex' ? ofHex(part('value').value) : asBytes(part('value').value);
    if (value === null) part('answer').textContent = formOf() === 'hex' ? 'Hexadecimal digits come in pairs.' : 'In a value a backslash is written \\\\, and any byte \\xNN.';
    return value;
}

function showValue(bytes) {
    page.valueFile = undefined;
    page.value = bytes;
    const shown = bytes.subarray(0, VALUE_SHOWN);
    const whole = shown.length === bytes.length;
    part('value').value = formOf() === 'hex' ? asHex(shown) : asText(shown);
    // What is shown in part is kept whole, so that it cannot be put back cut off.
    if (!whole) page.valueFile = bytes;
    part('value').readOnly = !whole;
    part('value-save').disabled = false;
}

function get() {
    const key = keyTyped();
    if (key === null || page.frame === null) return;
    const { answer, place, length, slots } = page.store.lookUp(page.frame, key);
    if (answer === 0) showValue(page.frame.slice(place, place + length));
    const seen = answer === 0 ? `; ${grouped(length)} bytes at ${grouped(place)}, ${slots} slots read` : answer === 8 ? `; ${slots} slots read` : '';
    told('look-up', answer, seen);
}

// A call that changes the frame; what it left becomes the image, and the image before it can be had back.
function change(call, made) {
    const { answer, frame } = made;
    const same = frame.every((byte, place) => byte === page.frame[place]);
    if (!same) {
        page.past.push(page.frame);
        if (page.past.length > MOST_UNDO) page.past.shift();
        page.frame = frame;
        show();
    }
    told(call, answer);
}

function act(call, withValue) {
    if (page.frame === null) return;
    const key = keyTyped();
    const value = withValue ? valueTyped() : null;
    if (key === null || (withValue && value === null)) return;
    change(call, withValue ? page.store[call](page.frame, key, value) : page.store[call](page.frame, key));
    if (page.reading !== null) chooseKeyQuietly(key);
}

function chooseKeyQuietly(key) {
    const before = part('answer').textContent;
    const typed = part('value').value;
    const file = page.valueFile;
    chooseKey(key);
    part('answer').textContent = before;
    part('value').value = typed;
    page.valueFile = file;
}

// ---- files

function opened(name, bytes) {
    page.frame = bytes;
    page.name = name;
    page.past = [];
    page.start = null;
    part('answer').textContent = '';
    show();
}

async function openFile(file) {
    if (file !== undefined) opened(file.name, new Uint8Array(await file.arrayBuffer()));
}

function saveAs(name, bytes) {
    const link = document.createElement('a');
    link.href = URL.createObjectURL(new Blob([bytes], { type: 'application/octet-stream' }));
    link.download = name;
    link.click();
    URL.revokeObjectURL(link.href);
}

function made(event) {
    event.preventDefault();
    const bytes = Number(part('new-bytes').value);
    const slots = Number(part('new-slots').value);
    const fits = Number.isInteger(bytes) && bytes >= 0 && bytes <= 2 * 524288 && Number.isInteger(slots) && slots >= 0;
    const { answer, frame } = fits ? page.store.format(bytes, slots) : { answer: 1 };
    if (answer === 0) opened('new.frame', frame);
    told('format', answer);
}

function start() {
    part('legend').replaceChildren(...LEGEND.map((look) => {
        const [colour, words] = LOOKS[look];
        const one = document.createElement('span');
        const patch = document.createElement('i');
        patch.style.background = colour;
        one.append(patch, words);
        return one;
    }));
    part('open').addEventListener('change', (event) => openFile(event.target.files[0]));
    part('new').addEventListener('submit', made);
    part('save').addEventListener('click', () => saveAs(page.name, page.frame));
    part('pack').addEventListener('click', () => {
        const { answer, image } = page.before ? page.store.packBefore(page.frame) : page.store.pack(page.frame);
        change(page.before ? 'pack by the old rule' : 'pack', { answer, frame: answer === 0 ? image : page.frame });
    });
    part('undo').addEventListener('click', () => {
        page.frame = page.past.pop();
        show();
        part('answer').textContent = 'undone';
    });
    part('list').addEventListener('submit', (event) => {
        event.preventDefault();
        list(null);
    });
    part('first').addEventListener('click', () => list(null));
    part('next').addEventListener('click', () => list(page.last));
    part('record').addEventListener('submit', (event) => event.preventDefault());
    part('get').addEventListener('click', get);
    part('put').addEventListener('click', () => act('put', true));
    part('replace').addEventListener('click', () => act('replace', true));
    part('erase').addEventListener('click', () => act('erase', false));
    part('value-file').addEventListener('change', async (event) => {
        const [file] = event.target.files;
        if (file !== undefined) showValue(new Uint8Array(await file.arrayBuffer()));
    });
    part('value-save').addEventListener('click', () => saveAs('value', page.value));
    for (const form of document.querySelectorAll('input[name=form]')) form.addEventListener('change', () => page.value !== undefined && showValue(page.value));
    part('map').addEventListener('mousemove', (event) => {
        const stretch = page.frame === null ? null : map.at(event);
        if (stretch !== null) part('pointed').textContent = wordsFor(stretch);
    });
    part('map').addEventListener('click', (event) => {
        const stretch = page.frame === null ? null : map.at(event);
        if (stretch !== null && page.reading.live.has(stretch.slot)) choose(page.reading.live.get(stretch.slot));
    });
    document.addEventListener('dragover', (event) => {
        event.preventDefault();
        document.body.classList.add('over');
    });
    document.addEventListener('dragleave', () => document.body.classList.remove('over'));
    document.addEventListener('drop', (event) => {
        event.preventDefault();
        document.body.classList.remove('over');
        openFile(event.dataTransfer.files[0]);
    });
}

async function load() {
    page.store = await Store.from(Uint8Array.from(atob(MODULE), (character) => character.charCodeAt(0)));
    start();
    document.body.dataset.ready = 'yes';
}

load();
