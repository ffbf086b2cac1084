// Debian's chromium-headless-shell by the DevTools protocol on its file descriptors 3 and 4: no port, no driver, no package.
import { writeFile } from 'node:fs/promises';
import { answerOf, callOf, keyOf, keysOf, middleOf, profileFolder, programOf, started, until, within } from './driving.mjs';

export const name = 'Chromium';
export const program = () => programOf(['chromium-headless-shell', 'chromium']);

const WORDS = [
    '--headless', '--remote-debugging-pipe', '--no-first-run', '--no-default-browser-check', '--disable-background-networking',
    '--disable-component-update', '--disable-extensions', '--disable-dev-shm-usage', '--mute-audio', '--force-color-profile=srgb', '--lang=en',
    // where memory ends is tested by code: by a signal, a trap of WebAssembly is never told in some virtual machines
    '--disable-features=WebAssemblyTrapHandler',
];

// Commands and their answers by number; everything else that comes is news of a page.
class Pipe {
    constructor(write, read, ended) {
        this.write = write;
        this.number = 0;
        this.waiting = new Map();
        this.hear = () => {};
        let begun = [];
        // a text is decoded when it is whole, since a letter may stand across two pieces
        read.on('data', (piece) => {
            for (let end = piece.indexOf(0); end >= 0; end = piece.indexOf(0)) {
                this.take(JSON.parse(Buffer.concat([...begun, piece.subarray(0, end)]).toString()));
                begun = [];
                piece = piece.subarray(end + 1);
            }
            if (piece.length > 0) begun.push(piece);
        });
        // writing to a browser that has gone is an error of the stream, and of every command that waits
        write.on('error', () => {});
        ended.then(() => this.waiting.forEach(({ reject, method }) => reject(new Error(`${method}: the browser has ended`))));
    }

    take(message) {
        const { resolve, reject, method } = this.waiting.get(message.id) || {};
        if (!resolve) return this.hear(message);
        this.waiting.delete(message.id);
        if (message.error) reject(new Error(`${method}: ${message.error.message}`));
        else resolve(message.result);
    }

    send(method, params = {}, sessionId = undefined) {
        const id = ++this.number;
        const answered = new Promise((resolve, reject) => this.waiting.set(id, { resolve, reject, method }));
        this.write.write(JSON.stringify({ id, method, params, sessionId }) + '\0');
        return within(answered, () => {
            throw new Error(`${method}: no answer in time`);
        });
    }
}

class Page {
    constructor(pipe, target, channel) {
        Object.assign(this, { pipe, target, channel, requests: [], complaints: [], told: () => {} });
    }

    send(method, params) {
        return this.pipe.send(method, params, this.channel);
    }

    // What the browser tells of this page.
    hear(method, params) {
        if (method === 'Network.requestWillBeSent') this.requests.push(params.request.url);
        if (method === 'Page.navigatedWithinDocument') this.told(method);
        if (method === 'Page.lifecycleEvent' && params.name === 'load') this.told(params.loaderId);
        if (method === 'Page.loadEventFired') this.told(method);
        if (method === 'Runtime.exceptionThrown') this.complaints.push(wordsOf(params.exceptionDetails));
        if (method === 'Runtime.consoleAPICalled' && ['error', 'assert'].includes(params.type)) {
            this.complaints.push('console: ' + params.args.map((arg) => arg.description || String(arg.value)).join(' '));
        }
        if (method === 'Log.entryAdded' && (params.entry.level === 'error' || params.entry.source === 'security')) {
            this.complaints.push(`${params.entry.source}: ${params.entry.text}`);
        }
        if (method === 'Page.javascriptDialogOpening') {
            this.complaints.push(`a ${params.type} box: ${params.message}`);
            this.send('Page.handleJavaScriptDialog', { accept: true }).catch(() => {});
        }
    }

    async begin(seen) {
        for (const part of ['Page', 'Runtime', 'Network', 'Log']) await this.send(part + '.enable');
        await this.send('Page.setLifecycleEventsEnabled', { enabled: true });
        await this.emulate(seen);
    }

    // Goes to another address; one that differs behind its # alone loads nothing.
    async go(url) {
        await this.arrival(async () => {
            const { loaderId, errorText } = await this.send('Page.navigate', { url });
            if (errorText) throw new Error(`${url}: ${errorText}`);
            // by its number: the load of the empty page before it may be told later than that this one begins
            return loaderId || 'Page.navigatedWithinDocument';
        });
    }

    reload() {
        return this.arrival(async () => this.send('Page.reload').then(() => 'Page.loadEventFired'));
    }

    // Waits until the browser has told what `act` names, which may be while `act` still runs.
    async arrival(act) {
        const heard = new Set();
        let wanted;
        const arrived = new Promise((resolve) => {
            this.told = (news) => heard.add(news) && heard.has(wanted) && resolve();
        });
        wanted = await act();
        this.told(null);
        await within(arrived, () => {
            throw new Error('the page was not loaded in time');
        });
    }

    // What a script gives, as text or nothing: it runs as one of the page's own does, but that no policy holds it back.
    async run(text) {
        const asked = { expression: text, awaitPromise: true, returnByValue: true, userGesture: true };
        const { result, exceptionDetails } = await this.send('Runtime.evaluate', asked);
        if (exceptionDetails) throw new Error('in the page: ' + wordsOf(exceptionDetails));
        return result.value;
    }

    async evaluate(asked, ...given) {
        return answerOf(await this.run(callOf(asked, given)));
    }

    until(condition, ...given) {
        return until(this, condition, given);
    }

    // The same as `complaints`, which Firefox has to be asked for.
    async complained() {
        return this.complaints;
    }

    async press(key, held = {}) {
        const { code, number, text } = keyOf(key);
        const modifiers = bitsOf(held);
        // with Ctrl or Alt a key writes nothing
        const written = held.ctrl || held.alt ? '' : text;
        const common = { key, code, modifiers, windowsVirtualKeyCode: number };
        await this.send('Input.dispatchKeyEvent', { ...common, type: written ? 'keyDown' : 'rawKeyDown', text: written, unmodifiedText: written });
        await this.send('Input.dispatchKeyEvent', { ...common, type: 'keyUp' });
    }

    async type(text) {
        for (const key of keysOf(text)) await this.press(key);
    }

    async click(selector, { count = 1, ...held } = {}) {
        const { x, y } = await this.evaluate(middleOf, selector);
        await this.clickAt(x, y, { count, ...held });
    }

    async clickAt(x, y, { count = 1, ...held } = {}) {
        const common = { x, y, modifiers: bitsOf(held) };
        await this.send('Input.dispatchMouseEvent', { ...common, type: 'mouseMoved' });
        for (let clickCount = 1; clickCount <= count; clickCount++) {
            await this.send('Input.dispatchMouseEvent', { ...common, type: 'mousePressed', button: 'left', buttons: 1, clickCount });
            await this.send('Input.dispatchMouseEvent', { ...common, type: 'mouseReleased', button: 'left', buttons: 0, clickCount });
        }
    }

    // What is seen, or the whole page, as a PNG.
    async screenshot(file, { whole = false } = {}) {
        const { cssContentSize } = await this.send('Page.getLayoutMetrics');
        const clip = whole ? { ...cssContentSize, scale: 1 } : undefined;
        const { data } = await this.send('Page.captureScreenshot', { format: 'png', captureBeyondViewport: whole, clip });
        await writeFile(file, Buffer.from(data, 'base64'));
    }

    // What a screen reader is told, in its order.
    async accessibility() {
        const { nodes } = await this.send('Accessibility.getFullAXTree');
        const textOf = (part) => part && part.value !== undefined ? part.value : '';
        return nodes.filter((node) => !node.ignored).map((node) => ({
            role: textOf(node.role),
            name: textOf(node.name),
            value: textOf(node.value),
            description: textOf(node.description),
            states: Object.fromEntries((node.properties || []).map((property) => [property.name, property.value.value])),
        }));
    }

    async emulate({ width = 1024, height = 768, dark = false, mobile = false, print = false } = {}) {
        await this.send('Emulation.setDeviceMetricsOverride', { width, height, mobile, deviceScaleFactor: mobile ? 2 : 1 });
        await this.send('Emulation.setTouchEmulationEnabled', { enabled: mobile });
        const features = [{ name: 'prefers-color-scheme', value: dark ? 'dark' : 'light' }];
        await this.send('Emulation.setEmulatedMedia', { media: print ? 'print' : '', features });
    }

    close() {
        return this.pipe.send('Target.closeTarget', { targetId: this.target });
    }
}

function wordsOf({ text, exception, url, lineNumber }) {
    const said = exception ? exception.description || String(exception.value) : text;
    return url ? `${said} (${url}:${lineNumber + 1})` : said;
}

const bitsOf = ({ alt, ctrl, shift }) => (alt ? 1 : 0) + (ctrl ? 2 : 0) + (shift ? 8 : 0);

// A browser with a profile of its own.
export async function launch() {
    const { folder, remove } = profileFolder();
    // Chromium does not run as root in its sandbox
    const words = [...WORDS, `--user-data-dir=${folder}`, ...(process.getuid() === 0 ? ['--no-sandbox'] : [])];
    const { child, ended, end } = started(program(), words, ['ignore', 'ignore', 'ignore', 'pipe', 'pipe']);
    const pipe = new Pipe(child.stdio[3], child.stdio[4], ended);
    const pages = new Map();
    pipe.hear = ({ method, params, sessionId }) => pages.has(sessionId) && pages.get(sessionId).hear(method, params);
    return {
        async open(url, seen = {}) {
            const { targetId } = await pipe.send('Target.createTarget', { url: 'about:blank' });
            const { sessionId } = await pipe.send('Target.attachToTarget', { targetId, flatten: true });
            const page = new Page(pipe, targetId, sessionId);
            pages.set(sessionId, page);
            await page.begin(seen);
            await page.go(url);
            return page;
        },
        async close() {
            await pipe.send('Browser.close').catch(() => {});
            await end();
            remove();
        },
    };
}
