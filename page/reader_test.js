// Holds the page's reader to the second store's rules: of good frames and of thousands of damaged ones, both name the same broken rules at the same
// slots and bytes, and the same live slots. And to the proved calls: no rule is broken exactly where the check's answer is 0, and none but those of
// wiped bytes where the packing by the old rule gives 0.
// reader_test.js MODULE BROKEN: the WebAssembly module, and the program tools/rules/examples/broken.
'use strict';
const assert = require('assert');
const { execFileSync } = require('child_process');
const fs = require('fs');
const os = require('os');
const path = require('path');
const { readFrame, RULES, KINDS } = require('./src/reader.js');
const { Store } = require('./src/store.js');

const DAMAGED_EACH = 3000;
// What a frame from before freed bytes were wiped may break.
const WIPED = ['FreedBody', 'DeadExtent', 'NeverGiven'];

// The same numbers in every run.
let seed = 1;
function below(limit) {
    seed = (Math.imul(seed, 1103515245) + 12345) >>> 0;
    return Math.floor((seed / 4294967296) * limit);
}

const text = (words) => new TextEncoder().encode(words);

// Frames with every kind, freed bodies and dead extents.
function frames(store) {
    const made = [];
    const start = (bytes, slots) => store.format(bytes, slots).frame;
    const all = (frame, records) => records.reduce((before, [key, value]) => store.put(before, key, value).frame, frame);
    made.push(start(1024, 8), all(start(1024, 8), [['a', '1'], ['b', '2'], ['ab', '3'], ['ac', '4']].map((pair) => pair.map(text))));
    for (const children of [4, 16, 48, 200]) {
        const keys = Array.from({ length: children }, (_, byte) => Uint8Array.from([...text('line.'), byte + 1, ...text('.rate')]));
        let frame = all(start(16384, 512), keys.map((key, place) => [key, text('v'.repeat(place % 11))]));
        made.push(frame);
        for (const key of keys.slice(0, Math.floor(children / 3))) frame = store.erase(frame, key).frame;
        made.push(frame);
    }
    for (const frame of made) assert.strictEqual(store.check(frame), 0);
    return made;
}

// Some of a frame's bytes changed: mostly in the header, the table and what is given out, now and then behind it.
function damaged(frame) {
    const bytes = frame.slice();
    const given = new DataView(frame.buffer, frame.byteOffset).getUint32(16, true);
    const view = new DataView(bytes.buffer);
    // Now and then a slot is said to be of another kind, so that bodies are read as what they are not.
    if (below(4) === 0) {
        const entry = 64 + 4 * below(view.getUint32(20, true));
        view.setUint32(entry, (view.getUint32(entry, true) % 131072) + 131072 * below(9), true);
    }
    for (let changes = below(3); changes > 0; changes -= 1) {
        const at = below(3) === 0 ? below(64) : below(8) === 0 ? given + below(bytes.length - given) : below(given);
        bytes[at] = below(2) === 0 ? below(256) : bytes[at] ^ (1 << below(8));
    }
    return bytes;
}

function lineOf(frame) {
    const reading = readFrame(frame);
    if (!reading.lengthHolds()) return 'length';
    const order = Object.keys(RULES);
    const broken = [...reading.broken].sort((one, other) => order.indexOf(one.rule) - order.indexOf(other.rule));
    const live = [...reading.live.values()].sort((one, other) => one.slot - other.slot);
    return `${broken.map(({ rule, slot, from, to }) => `${rule}:${slot}:${from}:${to} `).join('')}|${live.map(({ slot, kind }) => ` ${slot}:${kind}`).join('')}`;
}

// Every byte of a good frame belongs to one stretch, and bodies and extents are whole.
function stretchesHold(frame) {
    const stretches = readFrame(frame).stretches();
    let at = 0;
    for (const { from, to, what, kind } of stretches) {
        assert.strictEqual(from, at);
        if (what === 'body' || what === 'freed') assert.strictEqual(to - from, KINDS[kind].bytes);
        at = to;
    }
    assert.strictEqual(at, frame.length);
}

async function main() {
    const [, , modulePath, broken] = process.argv;
    const store = await Store.from(fs.readFileSync(modulePath));
    const folder = fs.mkdtempSync(path.join(os.tmpdir(), 'frame-reader-'));
    const met = new Set();
    let compared = 0;
    for (const frame of frames(store)) {
        stretchesHold(frame);
        const tried = [frame, ...Array.from({ length: DAMAGED_EACH }, () => damaged(frame))];
        const file = path.join(folder, 'frames');
        fs.writeFileSync(file, Buffer.concat(tried));
        const said = execFileSync(broken, [file, String(frame.length)], { encoding: 'utf8', maxBuffer: 1 << 28 }).trimEnd().split('\n');
        assert.strictEqual(said.length, tried.length);
        tried.forEach((one, place) => {
            const line = lineOf(one);
            assert.strictEqual(line, said[place]);
            const number = store.check(one);
            assert.strictEqual(number, line === 'length' ? 1 : line.startsWith('|') ? 0 : 2);
            const before = line.split('|')[0].split(' ').filter((one) => one !== '').every((one) => WIPED.includes(one.split(':')[0]));
            assert.strictEqual(store.packBefore(one).answer, line === 'length' ? 1 : before ? 0 : 2);
            for (const { rule } of readFrame(one).broken) met.add(rule);
            compared += 1;
        });
    }
    fs.rmSync(folder, { recursive: true });
    // D + 8 is above F only for an N that no damage of these frames gives.
    const missed = Object.keys(RULES).filter((rule) => !met.has(rule));
    assert.deepStrictEqual(missed, []);
    console.log(`reader: ${compared} frames read as the second store reads them, each of ${met.size} rules broken in some`);
}

main();
