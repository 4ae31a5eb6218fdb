// The proved calls, from the WebAssembly module inside the page. Everything that judges or changes the bytes of an image goes through here.
// A call is lent copies of what it is given in the module's memory, and what it leaves is copied back.
'use strict';

const PAGE_BYTES = 65536;
const NO_DELIMITER = 256;
const LONGEST_VALUE = 65535;

// Every number that a call can give, in words.
const NUMBERS = {
    0: 'done',
    1: 'refused: F or N against the limits, or not the length that the frame holds',
    2: 'refused: not a good frame',
    3: 'refused: the key (or prefix) has a length that is not allowed',
    4: 'refused: the key holds a byte 0',
    5: 'refused: the value has more than 65,535 bytes',
    6: 'refused: no room',
    7: 'refused: the output is not as long as the frame',
    8: 'no such key; nothing changed',
    9: 'done: the key was there and has the new value',
    10: 'refused: the buffer is too small for the first name',
    11: 'the key is there already; nothing changed',
};

class Store {
    constructor(exported) {
        this.exported = exported;
        this.start = Math.ceil(exported.__heap_base.value / 16) * 16;
    }

    static async from(bytes) {
        const { instance } = await WebAssembly.instantiate(bytes, {});
        return new Store(instance.exports);
    }

    // Calls `name`: a number is passed as it is, bytes as a pointer and a length, { numbers } as a pointer and a count. Gives the answer and
    // what each of the lent buffers holds afterwards.
    call(name, ...lent) {
        const sizes = lent.map((one) => (one instanceof Uint8Array ? one.length : one.numbers !== undefined ? 8 * one.numbers : 0));
        const places = [];
        let at = this.start;
        for (const size of sizes) {
            places.push(at);
            at += Math.ceil((size + 1) / 16) * 16;
        }
        const { memory } = this.exported;
        const missing = at - memory.buffer.byteLength;
        if (missing > 0) memory.grow(Math.ceil(missing / PAGE_BYTES));
        const all = new Uint8Array(memory.buffer);
        const given = [];
        lent.forEach((one, place) => {
            if (typeof one === 'number') {
                given.push(BigInt(one));
                return;
            }
            if (one instanceof Uint8Array) all.set(one, places[place]);
            else all.fill(0, places[place], places[place] + sizes[place]);
            given.push(places[place], BigInt(one instanceof Uint8Array ? one.length : one.numbers));
        });
        const answer = Number(this.exported[name](...given));
        const left = lent.map((one, place) => {
            if (one instanceof Uint8Array) return all.slice(places[place], places[place] + sizes[place]);
            if (typeof one === 'number') return one;
            const view = new DataView(memory.buffer, places[place]);
            return Array.from({ length: one.numbers }, (_, number) => Number(view.getBigUint64(8 * number, true)));
        });
        return { answer, left };
    }

    format(bytes, slots) {
        const { answer, left } = this.call('frame_format', new Uint8Array(bytes), bytes, slots);
        return { answer, frame: left[0] };
    }

    check(frame) { return this.call('frame_check', frame).answer; }

    lookUp(frame, key) {
        const { answer, left } = this.call('frame_look_up', frame, key, { numbers: 3 });
        const [place, length, slots] = left[2];
        return { answer, place, length, slots };
    }

    // put, replace and erase: the answer, and the frame after it.
    put(frame, key, value) { return this.changed('frame_put', frame, key, value); }

    replace(frame, key, value) { return this.changed('frame_replace', frame, key, value); }

    erase(frame, key) { return this.changed('frame_erase', frame, key); }

    changed(name, frame, ...lent) {
        const { answer, left } = this.call(name, frame, ...lent);
        return { answer, frame: left[0] };
    }

    pack(frame) { return this.packed('frame_pack', frame); }

    // The same for a frame from before freed bytes were wiped.
    packBefore(frame) { return this.packed('frame_pack_before', frame); }

    packed(name, frame) {
        const { answer, left } = this.call(name, frame, new Uint8Array(frame.length));
        return { answer, image: left[1] };
    }

    info(frame) {
        const { answer, left } = this.call('frame_info', frame, { numbers: 14 });
        return { answer, counts: left[1] };
    }

    // One page of names: the entries as bytes, and whether more remain.
    list(frame, prefix, start, delimiter, buffer) {
        const after = start === null ? new Uint8Array(0) : start;
        const { answer, left } = this.call(
            'frame_list', frame, prefix, after, start === null ? 0 : 1, delimiter === null ? NO_DELIMITER : delimiter, new Uint8Array(buffer), { numbers: 2 },
        );
        const entries = [];
        const [count, more] = left[6];
        const bytes = left[5];
        let at = 0;
        for (let entry = 0; answer === 0 && entry < count; entry += 1) {
            const length = bytes[at] + 256 * bytes[at + 1];
            entries.push(bytes.slice(at + 2, at + 2 + length));
            at += 2 + length;
        }
        return { answer, entries, more: more === 1 };
    }
}

if (typeof module !== 'undefined') module.exports = { Store, NUMBERS, LONGEST_VALUE };
