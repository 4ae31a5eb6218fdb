// Drives a real browser (headless Chromium) through the pipe that it offers for that; no library.
'use strict';
const { spawn } = require('child_process');
const fs = require('fs');
const os = require('os');
const path = require('path');

const PATIENCE = 60000;

class Browser {
    static async open(file, downloads) {
        const browser = new Browser();
        browser.home = fs.mkdtempSync(path.join(os.tmpdir(), 'frame-page-'));
        browser.child = spawn('chromium', [
            '--headless=new', '--no-sandbox', '--disable-gpu', '--no-first-run', '--disable-dev-shm-usage', '--disable-background-networking',
            '--remote-debugging-pipe', `--user-data-dir=${browser.home}`, '--window-size=1900,1400', 'about:blank',
        ], { stdio: ['ignore', 'ignore', 'ignore', 'pipe', 'pipe'] });
        browser.asked = new Map();
        browser.errors = [];
        browser.requests = [];
        browser.next = 1;
        let rest = '';
        browser.child.stdio[4].on('data', (chunk) => {
            const messages = (rest + chunk).split('\0');
            rest = messages.pop();
            for (const message of messages) browser.heard(JSON.parse(message));
        });
        const { targetInfos } = await browser.ask('Target.getTargets');
        const { targetId } = targetInfos.find(({ type }) => type === 'page');
        browser.session = (await browser.ask('Target.attachToTarget', { targetId, flatten: true })).sessionId;
        for (const domain of ['Page', 'Runtime', 'DOM', 'Network']) await browser.ask(`${domain}.enable`);
        await browser.ask('Browser.setDownloadBehavior', { behavior: 'allow', downloadPath: downloads });
        await browser.ask('Page.navigate', { url: `file://${path.resolve(file)}` });
        await browser.until("document.body && document.body.dataset.ready === 'yes'");
        return browser;
    }

    heard({ id, result, error, method, params }) {
        if (id !== undefined) {
            const { done, failed } = this.asked.get(id);
            this.asked.delete(id);
            if (error === undefined) done(result);
            else failed(new Error(error.message));
        }
        if (method === 'Runtime.exceptionThrown') this.errors.push(params.exceptionDetails.exception?.description ?? params.exceptionDetails.text);
        if (method === 'Network.requestWillBeSent') this.requests.push(params.request.url);
    }

    ask(method, params = {}) {
        const id = this.next;
        this.next += 1;
        const message = { id, method, params };
        if (this.session !== undefined && !method.startsWith('Browser.') && !method.startsWith('Target.')) message.sessionId = this.session;
        return new Promise((done, failed) => {
            this.asked.set(id, { done, failed });
            this.child.stdio[3].write(`${JSON.stringify(message)}\0`);
        });
    }

    // What an expression gives in the page.
    async value(expression) {
        const { result, exceptionDetails } = await this.ask('Runtime.evaluate', { expression, returnByValue: true, awaitPromise: true });
        if (exceptionDetails !== undefined) throw new Error(exceptionDetails.exception?.description ?? exceptionDetails.text);
        return result.value;
    }

    async until(expression) {
        const end = Date.now() + PATIENCE;
        for (;;) {
            if (await this.value(expression)) return;
            if (Date.now() > end) throw new Error(`the page never came to: ${expression}`);
            await new Promise((done) => { setTimeout(done, 20); });
        }
    }

    text(id) { return this.value(`document.getElementById(${JSON.stringify(id)}).textContent`); }

    // A real press of the mouse in the middle of what the selector finds.
    async press(selector) {
        const place = await this.value(`(() => {
            const one = document.querySelector(${JSON.stringify(selector)});
            one.scrollIntoView({ block: 'center' });
            const box = one.getBoundingClientRect();
            return { x: box.left + box.width / 2, y: box.top + box.height / 2 };
        })()`);
        for (const type of ['mouseMoved', 'mousePressed', 'mouseReleased']) {
            await this.ask('Input.dispatchMouseEvent', { type, ...place, button: type === 'mouseMoved' ? 'none' : 'left', clickCount: 1 });
        }
    }

    // The mouse over a place of what the selector finds, counted from its upper left corner.
    async point(selector, x, y) {
        const box = await this.value(`(() => {
            const one = document.querySelector(${JSON.stringify(selector)});
            one.scrollIntoView({ block: 'start' });
            const { left, top } = one.getBoundingClientRect();
            return { left, top };
        })()`);
        await this.ask('Input.dispatchMouseEvent', { type: 'mouseMoved', x: box.left + x, y: box.top + y });
    }

    async type(selector, text) {
        await this.value(`(() => { const one = document.querySelector(${JSON.stringify(selector)}); one.focus(); one.select?.(); one.value = ''; })()`);
        if (text !== '') await this.ask('Input.insertText', { text });
    }

    // Gives a file to an input, as one chosen by hand.
    async give(selector, file) {
        const { root } = await this.ask('DOM.getDocument');
        const { nodeId } = await this.ask('DOM.querySelector', { nodeId: root.nodeId, selector });
        await this.ask('DOM.setFileInputFiles', { nodeId, files: [path.resolve(file)] });
    }

    // The upper part of the page.
    async picture(file) {
        const clip = { x: 0, y: 0, width: 1880, height: 780, scale: 0.75 };
        const { data } = await this.ask('Page.captureScreenshot', { format: 'png', clip });
        fs.writeFileSync(file, Buffer.from(data, 'base64'));
    }

    async close() {
        const ended = new Promise((done) => { this.child.on('exit', done); });
        await this.ask('Browser.close').catch(() => {});
        await ended;
        fs.rmSync(this.home, { recursive: true, force: true });
    }
}

module.exports = { Browser };
