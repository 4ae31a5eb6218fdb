// The page in a real browser: images are opened, listed, changed, packed and saved by hand's events, and what is saved is compared with the same
// calls on x86-64, made by the tool.
// page_test.js PAGE TOOL PICTURES: the page, the program tools/frame, and a folder for pictures.
'use strict';
const assert = require('assert');
const { execFileSync } = require('child_process');
const fs = require('fs');
const os = require('os');
const path = require('path');
const { Browser } = require('./browser.js');

const [, , pagePath, toolPath, pictures] = process.argv;
const folder = fs.mkdtempSync(path.join(os.tmpdir(), 'frame-page-test-'));
const downloads = path.join(folder, 'downloads');
const MANY_RECORDS = 5000;

const tool = (...words) => execFileSync(toolPath, words, { encoding: 'utf8', stdio: ['ignore', 'pipe', 'pipe'] });
const inFolder = (name) => path.join(folder, name);

function settings(name) {
    const image = inFolder(name);
    tool('new', image, '--bytes', '16384', '--slots', '256');
    for (let line = 1; line <= 12; line += 1) {
        tool('put', image, `line.${line}.rate`, String(1000 * line));
        tool('put', image, `line.${line}.mode`, line % 2 === 0 ? 'vdsl' : 'adsl');
    }
    tool('put', image, 'wan', 'ppp');
    tool('erase', image, 'line.3.rate', 'line.4.mode');
    return image;
}

async function saved(browser, name) {
    const file = path.join(downloads, name);
    fs.rmSync(file, { force: true });
    await browser.press('#save');
    const end = Date.now() + 20000;
    while (!fs.existsSync(file) || fs.existsSync(`${file}.crdownload`)) {
        if (Date.now() > end) throw new Error('nothing was saved');
        await new Promise((done) => { setTimeout(done, 50); });
    }
    return fs.readFileSync(file);
}

async function open(browser, image) {
    await browser.give('#open', image);
    await browser.until(`document.getElementById('name').textContent.startsWith(${JSON.stringify(path.basename(image))})`);
}

const names = (browser) => browser.value("[...document.querySelectorAll('#names li')].map((line) => line.textContent)");

async function change(browser, button, key, value) {
    await browser.type('#key', key);
    if (value !== undefined) await browser.type('#value', value);
    await browser.press(button);
    return browser.text('answer');
}

async function goodImage(browser) {
    const image = settings('settings.frame');
    await open(browser, image);
    assert.strictEqual(await browser.text('verdict'), '0: a good frame');
    const all = tool('list', image).trimEnd().split('\n');
    assert.deepStrictEqual(await names(browser), all);

    await browser.type('#prefix', 'line.');
    await browser.type('#delimiter', '.');
    await browser.press('#list button');
    const groups = await names(browser);
    assert.deepStrictEqual(groups, tool('list', image, 'line.', '--delimiter', '.').trimEnd().split('\n'));
    assert.strictEqual(groups.length, 12);
    await browser.press('#names li');
    assert.deepStrictEqual(await names(browser), ['line.1.mode', 'line.1.rate']);
    await browser.press('#names li:nth-child(2)');
    assert.strictEqual(await browser.value("document.getElementById('value').value"), '1000');
    assert.ok((await browser.text('answer')).startsWith('look-up: 0'));
    assert.ok(await browser.value("document.querySelectorAll('#tree .chosen').length >= 3"));
    await browser.picture(path.join(pictures, 'settings.png'));

    const steps = [
        ['#put', 'put', 'line.1.rate', '7', 'put: 11'],
        ['#replace', 'replace', 'line.1.rate', '7000', 'replace: 9'],
        ['#replace', 'replace', 'line.99.rate', '7', 'replace: 8'],
        ['#put', 'put', 'dns\\x01', 'a\\\\b', 'put: 0'],
        ['#erase', 'erase', 'line.2.mode', undefined, 'erase: 0'],
        ['#erase', 'erase', 'nobody', undefined, 'erase: 8'],
        ['#put', 'put', 'a\\x00b', '1', 'put: 4'],
        ['#put', 'put', '', '1', 'put: 3'],
    ];
    const twin = inFolder('twin.frame');
    fs.copyFileSync(image, twin);
    for (const [button, call, key, value, answer] of steps) {
        const told = await change(browser, button, key, value);
        assert.ok(told.startsWith(answer), `${told} is not ${answer}`);
        try {
            tool(call, twin, key, ...(value === undefined ? [] : [value]));
        } catch (refused) {
            assert.strictEqual(refused.status, 1);
        }
        assert.ok((await saved(browser, 'settings.frame')).equals(fs.readFileSync(twin)), `${call} ${key}: other bytes than on x86-64`);
    }

    const before = await saved(browser, 'settings.frame');
    await browser.press('#pack');
    assert.ok((await browser.text('answer')).startsWith('pack: 0'));
    const packed = inFolder('packed.frame');
    tool('pack', twin, packed);
    assert.ok((await saved(browser, 'settings.frame')).equals(fs.readFileSync(packed)));
    await browser.press('#undo');
    assert.ok((await saved(browser, 'settings.frame')).equals(before));
}

// A new image; a value from a file, shown as hexadecimal digits; the map told of.
async function newImage(browser) {
    await browser.press('#new button');
    await browser.until("document.getElementById('name').textContent.startsWith('new.frame')");
    const image = inFolder('made.frame');
    tool('new', image, '--bytes', '16384', '--slots', '256');
    assert.ok((await saved(browser, 'new.frame')).equals(fs.readFileSync(image)));
    const piece = inFolder('piece');
    fs.writeFileSync(piece, Buffer.from(Array.from({ length: 9000 }, (_, place) => (place * 7) % 256)));
    await browser.give('#value-file', piece);
    await browser.until("document.getElementById('value').readOnly");
    await browser.type('#key', 'fw');
    await browser.press('#put');
    assert.ok((await browser.text('answer')).startsWith('put: 0'));
    tool('put', image, 'fw', '--from', piece);
    assert.ok((await saved(browser, 'new.frame')).equals(fs.readFileSync(image)));
    await browser.press('input[value=hex]');
    const digits = await browser.value("document.getElementById('value').value");
    assert.ok(digits.startsWith('00 07 0e 15'), digits.slice(0, 40));
    await browser.press('input[value=text]');
    await browser.point('#map', 3, 3);
    assert.strictEqual(await browser.text('pointed'), 'header: bytes 0 to 63');
    const { cell, columns } = await browser.value('({ cell: map.cell, columns: map.columns })');
    const extent = await browser.value("page.reading.parts.find(({ what }) => what === 'extent').from / 8");
    await browser.point('#map', cell * (extent % columns) + 2, cell * Math.floor(extent / columns) + 2);
    assert.ok((await browser.text('pointed')).startsWith('key and value of "fw"'));
    await browser.type('#new-bytes', '1000');
    await browser.press('#new button');
    assert.ok((await browser.text('answer')).startsWith('format: 1'));
}

async function damagedImages(browser) {
    const good = fs.readFileSync(settings('whole.frame'));
    const damages = [
        ['edition', (bytes) => bytes.writeUInt32LE(2, 0)],
        ['count', (bytes) => bytes.writeUInt32LE(99, 24)],
        ['entry', (bytes) => bytes.writeUInt32LE(0, 64 + 4 * 4)],
    ];
    for (const [name, damage] of damages) {
        const bytes = Buffer.from(good);
        damage(bytes);
        const image = inFolder(`${name}.frame`);
        fs.writeFileSync(image, bytes);
        await open(browser, image);
        assert.ok((await browser.text('verdict')).startsWith('2, refused'));
        const sentence = await browser.value("document.querySelector('#broken li').textContent");
        let said = '';
        try {
            tool('check', image);
        } catch (refused) {
            said = refused.stdout + refused.stderr;
        }
        const rule = /not kept: (.*) \(/.exec(sentence)[1];
        assert.ok(said.includes(rule), `the page says ${rule}, the tool ${said}`);
        await browser.picture(path.join(pictures, `${name}.png`));
    }
    // A frame that is not good is not packed, and stays as it is.
    const last = inFolder(`${damages[damages.length - 1][0]}.frame`);
    await open(browser, last);
    await browser.press('#pack');
    assert.ok((await browser.text('answer')).startsWith('pack: 2'));
    assert.ok((await saved(browser, path.basename(last))).equals(fs.readFileSync(last)));
    const short = inFolder('short.frame');
    fs.writeFileSync(short, good.subarray(0, 1000));
    await open(browser, short);
    assert.ok((await browser.text('verdict')).startsWith('1, refused'));
    const empty = inFolder('empty.frame');
    fs.writeFileSync(empty, '');
    await open(browser, empty);
    assert.ok((await browser.text('verdict')).startsWith('1, refused'));
}

// An image from before freed bytes were wiped: the page says so, and packs it as the tool does.
async function imageFromBefore(browser) {
    const good = fs.readFileSync(settings('wiped.frame'));
    const image = inFolder('before.frame');
    const bytes = Buffer.from(good);
    bytes.write('an old password', bytes.length - 64);
    fs.writeFileSync(image, bytes);
    await open(browser, image);
    const verdict = await browser.text('verdict');
    assert.ok(verdict.startsWith('2, refused') && verdict.includes('Pack packs it once'), verdict);
    assert.deepStrictEqual(await browser.value("[...document.querySelectorAll('#broken li')].map((line) => line.dataset.rule)"), ['NeverGiven']);
    await browser.picture(path.join(pictures, 'before.png'));
    await browser.press('#pack');
    assert.ok((await browser.text('answer')).startsWith('pack by the old rule: 0'));
    assert.strictEqual(await browser.text('verdict'), '0: a good frame');
    const packed = inFolder('moved.frame');
    tool('pack', '--before', image, packed);
    assert.ok((await saved(browser, 'before.frame')).equals(fs.readFileSync(packed)));
}

// A full frame of 524,288 bytes: every name once over the pages, and a click answers soon.
async function largeImage(browser) {
    const image = inFolder('large.frame');
    const lines = Array.from({ length: MANY_RECORDS }, (_, place) => `put sub/${String(place % 50).padStart(2, '0')}/${place}=value-${place}`);
    tool('new', image, '--bytes', '524288', '--slots', '10240');
    fs.writeFileSync(inFolder('large.batch'), `${lines.join('\n')}\n`);
    tool('batch', image, inFolder('large.batch'));
    await browser.type('#prefix', '');
    await browser.type('#delimiter', '');
    await open(browser, image);
    const all = tool('list', image).trimEnd().split('\n');
    assert.strictEqual(all.length, MANY_RECORDS);
    const seen = [...await names(browser)];
    while (!await browser.value("document.getElementById('next').disabled")) {
        await browser.press('#next');
        seen.push(...await names(browser));
    }
    assert.deepStrictEqual(seen, all);
    const took = await browser.value(`(() => {
        document.getElementById('key').value = 'sub/07/7';
        const before = performance.now();
        document.getElementById('get').click();
        return performance.now() - before;
    })()`);
    console.log(`page: a look-up in ${MANY_RECORDS} records of 524,288 bytes answered after ${took.toFixed(1)} ms`);
    await browser.picture(path.join(pictures, 'large.png'));
}

async function main() {
    fs.mkdirSync(downloads);
    fs.mkdirSync(pictures, { recursive: true });
    const browser = await Browser.open(pagePath, downloads);
    try {
        await goodImage(browser);
        await newImage(browser);
        await damagedImages(browser);
        await imageFromBefore(browser);
        await largeImage(browser);
        assert.deepStrictEqual(browser.errors, []);
        const outside = browser.requests.filter((url) => !url.startsWith('file://') && !url.startsWith('blob:') && !url.startsWith('data:'));
        assert.deepStrictEqual(outside, []);
    } finally {
        await browser.close();
        fs.rmSync(folder, { recursive: true, force: true });
    }
    console.log('page: opened, listed, changed, packed, undone and saved as on x86-64');
}

main();
