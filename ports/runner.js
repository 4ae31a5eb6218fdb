// Runs a list of calls (standard input) on a WebAssembly module (the first argument), and writes the same lines as runner.c, which says what a
// list has. A call's name is the module's, and what a line lends goes to it in order: bytes and numbers as a pointer and a length of 64 bits.
'use strict';
const fs = require('fs');
const { createHash } = require('crypto');

const FENCE = 16;
const ARENA_BYTES = 3 << 20;
const PAGE_BYTES = 1 << 16;
const PAINT = 0xa5;

const { exports: store } = new WebAssembly.Instance(new WebAssembly.Module(fs.readFileSync(process.argv[2])), {});
// The arena stands after what the module has for itself; its stack comes first in memory, and ends where its pointer is now.
const ARENA_AT = Math.ceil(store.__heap_base.value / 16) * 16;
store.memory.grow(Math.ceil(ARENA_BYTES / PAGE_BYTES) + 1);
const memory = new Uint8Array(store.memory.buffer);
const arena = memory.subarray(ARENA_AT, ARENA_AT + ARENA_BYTES);
const view = new DataView(store.memory.buffer);

const lines = [];
let step = 0;
let written = 'buffers';
const wrong = { answer: 0, byte: 0 };

function refuse(why) {
    throw new Error(`runner: ${why}`);
}

function bytesAt(at, length) {
    if (!(at >= FENCE && length >= 0 && at + length + FENCE <= ARENA_BYTES)) refuse('outside the arena');
    return arena.subarray(at, at + length);
}

function hashOf(bytes) {
    return createHash('sha256').update(bytes).digest('hex');
}

function lentOf(word) {
    const [, at, form, number] = /^(\d*)([:*=])(\d+)$/.exec(word) ?? refuse('a buffer was expected');
    const lent = { at: Number(at), form, number: BigInt(number) };
    if (form === ':') bytesAt(lent.at, Number(number));
    if (form === '*') bytesAt(lent.at, Number(number) * 8);
    return lent;
}

function contents({ at, form, number }) {
    if (form === ':') return [hashOf(arena.subarray(at - FENCE, at + Number(number) + FENCE))];
    if (form === '=') return [];
    return Array.from({ length: Number(number) + 2 }, (_, k) => view.getBigUint64(ARENA_AT + at + 8 * (k - 1), true));
}

function call([name, ...words]) {
    const lent = words.map(lentOf);
    const given = lent.flatMap(({ at, form, number }) => (form === '=' ? [number] : [ARENA_AT + at, number]));
    const top = store.__stack_pointer.value;
    if (written === 'stack') memory.fill(PAINT, 0, top);
    const before = process.hrtime.bigint();
    let answer = store[name](...given);
    const took = process.hrtime.bigint() - before;
    answer = typeof answer === 'bigint' ? BigInt.asUintN(64, answer) : BigInt(answer >>> 0);
    step += 1;
    if (step === wrong.answer) answer += 1n;
    const line = [step, name, answer];
    const last = lent[0].at + Number(lent[0].number) - 1;
    if (step === wrong.byte) arena[last] ^= 1;
    if (written === 'buffers') line.push(...lent.flatMap(contents));
    if (step === wrong.byte) arena[last] ^= 1;
    if (written === 'stack') {
        const lowest = memory.findIndex((byte) => byte !== PAINT);
        if (lowest === 0) refuse('the stack was too small');
        line.push(lowest < top ? top - lowest : 0);
    }
    if (written === 'time') line.push(took);
    lines.push(line.join(' '));
}

const commands = {
    call,
    scene: (words) => lines.push(['scene', ...words].join(' ')),
    fill: ([at, length, byte]) => bytesAt(+at, +length).fill(+byte),
    bytes: ([at, hex]) => bytesAt(+at, hex.length / 2).set(Buffer.from(hex, 'hex')),
    copy: ([from, to, length]) => bytesAt(+to, +length).set(bytesAt(+from, +length)),
    flip: ([at, mask]) => (bytesAt(+at, 1)[0] ^= +mask),
    hash: ([at, length]) => lines.push(`hash ${hashOf(bytesAt(+at, +length))}`),
    write: ([what]) => (written = what),
    wrong: ([what, at]) => (wrong[what] = +at),
    random: ([at, length, seed]) => {
        let x = +seed;
        const to = bytesAt(+at, +length);
        for (let i = 0; i < to.length; i++) {
            x ^= x << 13;
            x ^= x >>> 17;
            x ^= x << 5;
            to[i] = x >>> 24;
        }
    },
};

for (const line of fs.readFileSync(0, 'latin1').split('\n').filter(Boolean)) {
    const [command, ...words] = line.split(' ');
    (commands[command] ?? refuse('no such command'))(words);
}
process.stdout.write(lines.join('\n') + '\n');
