// Reads a frame, to draw it and to say which rule of "A good frame" it breaks. It judges nothing: whether a frame is good is the proved
// check's answer. Written from docs/FORMAT.md; `page/test` holds its rules and its stretches to those of the second store.
'use strict';

const HEADER_BYTES = 64;
const UNIT = 8;
const LIMITS = { leastBytes: 1024, mostBytes: 524288, leastSlots: 8, mostSlots: 10240, longestKey: 112, longestPrefix: 112 };
const EMPTY_ROOT_BYTES = 8;

// By number: name, bytes of the body, the zero field, and for an inner kind how many children it may have and where they stand.
const KINDS = {
    1: { name: 'Leaf', bytes: 16, zero: [8, 16] },
    2: { name: 'Prefix', bytes: 128, zero: [6, 16] },
    4: { name: 'Node4', bytes: 24, zero: [2, 4], least: 2, most: 4, row: 4, children: 8 },
    5: { name: 'Node16', bytes: 88, zero: [2, 8], least: 4, most: 16, row: 8, children: 24 },
    6: { name: 'Node48', bytes: 456, zero: [2, 8], least: 13, most: 48, index: 8, children: 264 },
    7: { name: 'Node256', bytes: 1032, zero: [2, 8], least: 38, most: 256, children: 8 },
    8: { name: 'EmptyRoot', bytes: 8, zero: [0, 8] },
};

// One sentence of "A good frame" each, in the words that the tool has for them.
const RULES = {
    Edition: 'the edition is 1',
    SlotCapacity: 'N is even, from 8 to 10,240',
    DataStart: 'D is 64 + 4N',
    DataFits: 'D + 8 is at most F',
    FirstByteNeverGiven: 'B is a multiple of 8 from D + 8 to F',
    SlotsGiven: 'U is from 1 to N',
    HeaderZero: 'the last fourteen bytes of the header are zero',
    EntriesAboveU: 'entries above U are zero',
    ListThree: 'list 3 is empty',
    ListedSlot: 'a list names slots from 1 to U',
    ListedOnce: 'a freed slot stands on exactly one list, once',
    LiveOrListed: 'a slot is either reached from the root or stands on a list',
    RootSlot: 'the root is a slot from 1 to U',
    ChildSlot: 'a child in use is a slot from 1 to U',
    ReachedOnce: 'a live slot is reached from the root exactly once',
    NoneLost: 'each slot from 1 to U is reached from the root or stands on a list',
    LiveKind: 'a live slot is of kind 1, 2 or 4 to 8',
    BodyPlace: 'bodies lie between D and B',
    ExtentPlace: 'live extents lie between D and B',
    ExtentMultiple: 'live extents stand at multiples of 8',
    Overlap: 'no two bodies or live extents overlap',
    Sum: 'B - D equals the sizes of all bodies and live extents plus X',
    ChildrenAllowed: 'children in use: Node4 2 to 4, Node16 4 to 16, Node48 13 to 48, Node256 38 to 256',
    Count: 'the count says how many children are in use',
    BytesAscend: 'the bytes of a Node4 or Node16 strictly ascend',
    IndexPlace: 'a Node48 index entry is 0 or a place from 1 to 48',
    IndexDistinct: "no two entries of a Node48's index name one place",
    ZeroField: 'zero fields of live bodies are 0',
    UnusedBytes: 'unused bytes of live bodies are 0',
    UnusedChildren: 'unused children of live bodies are 0',
    PrefixLength: 'a Prefix has 1 to 112 bytes',
    PrefixChild: 'the child of a Prefix is of kind 4 to 7',
    KeyLength: "a Leaf's key has 1 to 112 bytes",
    KeyZero: "a Leaf's key holds no byte 0",
    Path: "a Leaf's walked string begins with the path that leads to it",
    EmptyRootPlace: 'EmptyRoot stands only at the root',
    Records: 'R is 0 with an EmptyRoot, and otherwise counts the Leaves',
    FreedBody: 'freed bodies are zero',
    DeadExtent: 'dead extents are zero',
    NeverGiven: 'bytes from B on are zero',
};

// The header's fields, and what stands behind it.
const AT = { edition: 0, F: 4, N: 8, D: 12, B: 16, U: 20, R: 24, X: 28, root: 32, lists: 34, zero: 50 };

const dataStart = (slots) => HEADER_BYTES + 4 * slots;
const entryAt = (slot) => HEADER_BYTES + 4 * (slot - 1);
const roundUp = (bytes) => Math.ceil(bytes / UNIT) * UNIT;

class Reader {
    constructor(frame) {
        this.frame = frame;
        this.view = new DataView(frame.buffer, frame.byteOffset, frame.byteLength);
        // Every rule that the frame breaks, and where it does first: { rule, slot, from, to }, the slot 0 where none is meant.
        this.broken = [];
        this.first = new Set();
        // What stands in the data, live and freed: { from, to, what, kind, slot, key }.
        this.parts = [];
        // By slot: { kind, at, up, byte, children, key, value } of what the tree reaches.
        this.live = new Map();
        this.lists = Array.from({ length: 9 }, () => []);
        this.listed = new Set();
        // By unit: the slot whose body or extent has it, the last one that was met, so a live one before a freed one.
        this.taken = new Uint16Array(Math.ceil(frame.length / UNIT));
        this.sizes = 0;
        this.root = 0;
    }

    u16(at) { return this.view.getUint16(at, true); }

    u32(at) { return this.view.getUint32(at, true); }

    entry(slot) {
        const word = this.u32(entryAt(slot));
        return { at: (word % 131072) * UNIT, high: Math.floor(word / 131072) };
    }

    demand(rule, kept, slot, from, to) {
        if (!kept && !this.first.has(rule)) {
            this.first.add(rule);
            this.broken.push({ rule, slot, from, to });
        }
        return kept;
    }

    // All of these bytes are zero; the place is the first that is not.
    demandZero(rule, slot, from, to) {
        for (let at = from; at < to; at += 1) {
            if (this.frame[at] !== 0) {
                this.demand(rule, false, slot, at, at + 1);
                return;
            }
        }
    }

    inSlots(slot) { return slot >= 1 && slot <= this.U; }

    // False if the slice's length is against F's limits or the stored F: the answer is then 1.
    lengthHolds() {
        const bytes = this.frame.length;
        return bytes % UNIT === 0 && bytes >= LIMITS.leastBytes && bytes <= LIMITS.mostBytes && this.u32(AT.F) === bytes;
    }

    whole() {
        if (!this.lengthHolds()) return this;
        this.numbers();
        if (!this.header()) return this;
        for (const kind of Object.keys(KINDS)) this.list(Number(kind));
        if (this.demand('RootSlot', this.inSlots(this.root), 0, AT.root, AT.root + 2)) this.tree();
        for (let slot = 1; slot <= this.U; slot += 1) {
            this.demand('NoneLost', this.listed.has(slot) || this.live.has(slot), slot, entryAt(slot), entryAt(slot) + 4);
        }
        const leaves = [...this.live.values()].filter(({ kind }) => kind === 1).length;
        this.demand('Records', this.R === leaves, 0, AT.R, AT.R + 4);
        this.demand('Sum', this.B - this.D === this.sizes + this.X, 0, AT.X, AT.X + 4);
        this.wiped();
        return this;
    }

    // What nothing live has is zero, from D to the frame's end.
    wiped() {
        for (let at = this.D; at < this.B; at += UNIT) {
            const slot = this.taken[at / UNIT];
            if (slot === 0) this.demandZero('DeadExtent', 0, at, at + UNIT);
            else if (this.listed.has(slot) && !this.live.has(slot)) this.demandZero('FreedBody', slot, at, at + UNIT);
        }
        this.demandZero('NeverGiven', 0, this.B, this.F);
    }

    numbers() {
        for (const name of ['N', 'B', 'U', 'R', 'X']) this[name] = this.u32(AT[name]);
        this.F = this.frame.length;
        this.D = dataStart(this.N);
        this.root = this.u16(AT.root);
    }

    header() {
        const { F, N, D, B, U } = this;
        const even = N % 2 === 0 && N >= LIMITS.leastSlots && N <= LIMITS.mostSlots;
        this.demand('Edition', this.u32(AT.edition) === 1, 0, AT.edition, AT.edition + 4);
        if (!this.demand('SlotCapacity', even, 0, AT.N, AT.N + 4)) return false;
        this.demand('DataStart', this.u32(AT.D) === D, 0, AT.D, AT.D + 4);
        if (!this.demand('DataFits', D + EMPTY_ROOT_BYTES <= F, 0, AT.N, AT.N + 4)) return false;
        const placed = B % UNIT === 0 && B >= D + EMPTY_ROOT_BYTES && B <= F;
        const given = this.demand('FirstByteNeverGiven', placed, 0, AT.B, AT.B + 4);
        if (!this.demand('SlotsGiven', U >= 1 && U <= N, 0, AT.U, AT.U + 4) || !given) return false;
        this.demandZero('HeaderZero', 0, AT.zero, HEADER_BYTES);
        this.demandZero('EntriesAboveU', 0, entryAt(U + 1), D);
        this.demand('ListThree', this.u16(AT.lists + 4) === 0, 0, AT.lists + 4, AT.lists + 6);
        return true;
    }

    // Takes a part of the data for a body or an extent; false if it lies outside.
    claim(part, rule) {
        this.sizes += part.to - part.from;
        if (!this.demand(rule, part.from >= this.D && part.to <= this.B, part.slot, part.from, part.to)) return false;
        for (let unit = Math.floor(part.from / UNIT); unit < Math.ceil(part.to / UNIT); unit += 1) {
            this.demand('Overlap', this.taken[unit] === 0, part.slot, unit * UNIT, (unit + 1) * UNIT);
            this.taken[unit] = part.slot;
        }
        this.parts.push(part);
        return true;
    }

    list(kind) {
        const head = AT.lists + 2 * (kind - 1);
        let next = this.u16(head);
        let link = { slot: 0, from: head, to: head + 2 };
        while (next !== 0) {
            if (!this.demand('ListedSlot', next <= this.U, link.slot, link.from, link.to)) return;
            if (!this.demand('ListedOnce', !this.listed.has(next), next, link.from, link.to)) return;
            this.listed.add(next);
            this.lists[kind].push(next);
            const { at, high } = this.entry(next);
            this.claim({ from: at, to: at + KINDS[kind].bytes, what: 'freed', kind, slot: next }, 'BodyPlace');
            link = { slot: next, from: entryAt(next), to: entryAt(next) + 4 };
            next = high;
        }
    }

    // Every slot that the root reaches, parent first and each child with all below it before the next child.
    tree() {
        const waiting = [{ slot: this.root, field: [AT.root, AT.root + 2], up: 0, byte: null, path: [] }];
        while (waiting.length > 0) {
            const below = this.reached(waiting.pop());
            for (const child of below.reverse()) waiting.push(child);
        }
    }

    // A slot that is reached by a path, and that a field names; gives the slots that it leads to.
    reached({ slot, field, up, byte, path }) {
        const named = entryAt(slot);
        if (up !== 0 && !this.demand('ChildSlot', this.inSlots(slot), up, ...field)) return [];
        if (!this.demand('ReachedOnce', !this.live.has(slot), slot, ...field)) return [];
        // No legal walked string is longer, so no Leaf below could keep its rule.
        if (!this.demand('Path', path.length <= LIMITS.longestKey + 1, slot, named, named + 4)) return [];
        const { at, high } = this.entry(slot);
        const kind = KINDS[high];
        if (!this.demand('LiveKind', kind !== undefined, slot, named, named + 4)) return [];
        const listed = this.listed.has(slot);
        this.demand('LiveOrListed', !listed, slot, named, named + 4);
        const node = { slot, kind: high, at, up, byte, children: [] };
        this.live.set(slot, node);
        const body = { from: at, to: at + kind.bytes, what: 'body', kind: high, slot };
        // The list has claimed the body of a slot that is listed as well.
        const readable = listed ? at >= this.D && body.to <= this.B : this.claim(body, 'BodyPlace');
        if (!readable) return [];
        const [zero, end] = kind.zero;
        this.demandZero('ZeroField', slot, at + zero, at + end);
        if (high === 8) {
            this.demand('EmptyRootPlace', up === 0, slot, named, named + 4);
            return [];
        }
        if (high === 1) {
            this.leaf(node, path);
            return [];
        }
        return high === 2 ? this.prefix(node, path) : this.inner(node, kind, path);
    }

    leaf(node, path) {
        const { at, slot } = node;
        const from = this.u32(at);
        const keyLength = this.u16(at + 4);
        const valueLength = this.u16(at + 6);
        const keyHolds = this.demand('KeyLength', keyLength >= 1 && keyLength <= LIMITS.longestKey, slot, at + 4, at + 6);
        this.demand('ExtentMultiple', from % UNIT === 0, slot, at, at + 4);
        const part = { from, to: from + roundUp(keyLength + valueLength), what: 'extent', kind: 1, slot };
        if (!this.claim(part, 'ExtentPlace') || !keyHolds) return;
        const key = this.frame.subarray(from, from + keyLength);
        node.key = key;
        node.value = this.frame.subarray(from + keyLength, from + keyLength + valueLength);
        node.extent = part;
        part.key = key;
        this.demand('KeyZero', !key.includes(0), slot, from, from + keyLength);
        const walked = [...key, 0];
        const begins = path.length <= walked.length && path.every((byte, place) => byte === walked[place]);
        this.demand('Path', begins, slot, from, from + keyLength);
    }

    prefix(node, path) {
        const { at, slot } = node;
        const length = this.u16(at + 4);
        this.demand('PrefixLength', length >= 1 && length <= LIMITS.longestPrefix, slot, at + 4, at + 6);
        if (length > LIMITS.longestPrefix) return [];
        const bytes = this.frame.subarray(at + 16, at + 16 + length);
        node.text = bytes;
        this.demandZero('UnusedBytes', slot, at + 16 + length, at + 128);
        const child = this.u32(at);
        if (!this.demand('ChildSlot', this.inSlots(child), slot, at, at + 4)) return [];
        const { high } = this.entry(child);
        const overInner = high >= 4 && high <= 7;
        this.demand('PrefixChild', overInner, slot, at, at + 4);
        // Only what lengthens the path is followed, so that every way ends.
        if (!overInner && length === 0) return [];
        node.children.push({ byte: null, slot: child });
        return [{ slot: child, field: [at, at + 4], up: slot, byte: null, path: [...path, ...bytes] }];
    }

    inner(node, kind, path) {
        const { at, slot } = node;
        const count = this.u16(at);
        if (!this.demand('ChildrenAllowed', count <= kind.most, slot, at, at + 2)) return [];
        if (kind.row !== undefined) node.children = this.inARow(node, kind, count);
        else if (kind.index !== undefined) node.children = this.byIndex(node, kind);
        else node.children = this.byByte(node, kind);
        const used = node.children.length;
        this.demand('Count', used === count, slot, at, at + 2);
        this.demand('ChildrenAllowed', used >= kind.least && used <= kind.most, slot, at, at + 2);
        return node.children.map(({ byte, slot: child, field }) => ({ slot: child, field: [field, field + 4], up: slot, byte, path: [...path, byte] }));
    }

    // Node4 and Node16: the first places, as many as the count.
    inARow({ at, slot }, kind, count) {
        const row = this.frame.subarray(at + kind.row, at + kind.row + kind.most);
        const bytesAt = at + kind.row;
        const children = [];
        for (let place = 0; place < count; place += 1) {
            const field = at + kind.children + 4 * place;
            children.push({ byte: row[place], slot: this.u32(field), field });
            const ascends = place === 0 || row[place - 1] < row[place];
            this.demand('BytesAscend', ascends, slot, bytesAt + place, bytesAt + place + 1);
        }
        this.demandZero('UnusedBytes', slot, bytesAt + count, bytesAt + kind.most);
        this.demandZero('UnusedChildren', slot, at + kind.children + 4 * count, at + kind.bytes);
        return children;
    }

    // Node48: an index entry names a place, from 1 on.
    byIndex({ at, slot }, kind) {
        const named = new Set();
        const children = [];
        for (let byte = 0; byte < 256; byte += 1) {
            const entry = at + kind.index + byte;
            const place = this.frame[entry];
            if (place === 0) continue;
            if (!this.demand('IndexPlace', place <= kind.most, slot, entry, entry + 1)) continue;
            if (!this.demand('IndexDistinct', !named.has(place), slot, entry, entry + 1)) continue;
            named.add(place);
            const field = at + kind.children + 4 * (place - 1);
            children.push({ byte, slot: this.u32(field), field });
        }
        for (let place = 1; place <= kind.most; place += 1) {
            const field = at + kind.children + 4 * (place - 1);
            if (!named.has(place)) this.demandZero('UnusedChildren', slot, field, field + 4);
        }
        return children;
    }

    // Node256: the child of byte b is the b-th, and 0 is none.
    byByte({ at }, kind) {
        const children = [];
        for (let byte = 0; byte < 256; byte += 1) {
            const field = at + kind.children + 4 * byte;
            const child = this.u32(field);
            if (child !== 0) children.push({ byte, slot: child, field });
        }
        return children;
    }

    // Every byte of the frame by what it belongs to, in order and without a gap.
    stretches() {
        if (this.D === undefined || this.D > this.F) return [{ from: 0, to: this.frame.length, what: 'unknown' }];
        const end = Math.min(Math.max(this.B, this.D), this.F);
        const found = [{ from: 0, to: HEADER_BYTES, what: 'header' }, { from: HEADER_BYTES, to: this.D, what: 'table' }];
        const inOrder = [...this.parts].sort((one, other) => one.from - other.from || one.to - other.to);
        let at = this.D;
        for (const part of inOrder) {
            if (part.to <= at) continue;
            if (part.from > at) found.push({ from: at, to: part.from, what: 'dead' });
            found.push({ ...part, from: Math.max(part.from, at) });
            at = part.to;
        }
        if (at < end) found.push({ from: at, to: end, what: 'dead' });
        if (end < this.F) found.push({ from: end, to: this.F, what: 'free' });
        return found;
    }

    // The slots from the root to this one.
    way(slot) {
        const slots = [];
        for (let node = this.live.get(slot); node !== undefined && slots.length <= this.U; node = this.live.get(node.up)) slots.unshift(node.slot);
        return slots;
    }
}

const readFrame = (frame) => new Reader(frame).whole();

if (typeof module !== 'undefined') module.exports = { readFrame, RULES, KINDS, AT, entryAt, dataStart };
