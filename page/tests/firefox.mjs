// Debian's firefox-esr by Marionette, the protocol that it has built in: a connection on this machine, no driver, no package.
import { readFile, writeFile } from 'node:fs/promises';
import { connect } from 'node:net';
import { join } from 'node:path';
import { setTimeout as after } from 'node:timers/promises';
import { answerOf, callOf, keyOf, keysOf, LIMIT, middleOf, profileFolder, programOf, started, until, within } from './driving.mjs';

export const name = 'Firefox';
export const program = () => programOf(['firefox-esr', 'firefox']);

// A port of its own choosing; no first pages, and nothing that it would ask the network for by itself.
const PREFERENCES = {
    'marionette.port': 0,
    'browser.startup.page': 0,
    'browser.shell.checkDefaultBrowser': false,
    'browser.aboutwelcome.enabled': false,
    'datareporting.policy.dataSubmissionEnabled': false,
    'app.normandy.enabled': false,
    'network.captive-portal-service.enabled': false,
    'network.connectivity-service.enabled': false,
    'extensions.update.enabled': false,
    'intl.locale.requested': 'en-US',
};

const HELD = { shift: '\ue008', ctrl: '\ue009', alt: '\ue00a' };

// Frames are `length:json`; the first one greets, each other one answers the command of its number.
class Connection {
    constructor(socket) {
        this.socket = socket;
        this.number = 0;
        this.waiting = new Map();
        this.greeted = new Promise((resolve) => this.waiting.set(0, { resolve }));
        let begun = Buffer.alloc(0);
        socket.on('data', (piece) => {
            begun = Buffer.concat([begun, piece]);
            for (let frame = frameOf(begun); frame; frame = frameOf(begun)) {
                begun = begun.subarray(frame.end);
                this.take(JSON.parse(frame.text));
            }
        });
        socket.on('error', () => {});
        socket.on('close', () => this.waiting.forEach(({ reject, command }) => reject && reject(new Error(`${command}: the browser has ended`))));
    }

    take(message) {
        const [, number, error, result] = Array.isArray(message) ? message : [1, 0, null, message];
        const { resolve, reject, command } = this.waiting.get(number);
        this.waiting.delete(number);
        if (error) reject(new Error(`${command}: ${error.message}`));
        else resolve(result);
    }

    send(command, given = {}) {
        const number = ++this.number;
        const answered = new Promise((resolve, reject) => this.waiting.set(number, { resolve, reject, command }));
        const frame = Buffer.from(JSON.stringify([0, number, command, given]));
        this.socket.write(Buffer.concat([Buffer.from(frame.length + ':'), frame]));
        return within(answered, () => {
            throw new Error(`${command}: no answer in time`);
        });
    }
}

function frameOf(data) {
    const colon = data.indexOf(':');
    const length = colon < 0 ? NaN : Number(data.subarray(0, colon).toString());
    return data.length >= colon + 1 + length ? { text: data.subarray(colon + 1, colon + 1 + length).toString(), end: colon + 1 + length } : null;
}

// Runs in Firefox beside the page: a text as a script of the page itself, where no policy holds it back, as its developer tools do it.
const RUN = `
    const [text, done] = arguments;
    const { addDebuggerToGlobal } = ChromeUtils.importESModule('resource://gre/modules/jsdebugger.sys.mjs');
    addDebuggerToGlobal(globalThis);
    const page = new Debugger().makeGlobalObjectReference(window.wrappedJSObject || window);
    const ended = page.executeInGlobal(text);
    const wordsOf = (error) => error && error.stack !== undefined ? error + '\\n' + error.stack : String(error);
    const plain = (value) => value && value.unsafeDereference ? value.unsafeDereference() : value;
    if ('throw' in ended) done([false, wordsOf(plain(ended.throw))]);
    else {
        const fine = (value) => done([true, typeof value === 'string' ? value : null]);
        Promise.resolve(plain(ended.return)).then(fine, (error) => done([false, wordsOf(error)]));
    }
`;

// Runs in Firefox itself.
const COMPLAINTS = `
    const errors = Services.console.getMessageArray().filter((message) => message instanceof Ci.nsIScriptError && !(message.flags & message.warningFlag));
    const own = errors.filter((error) => error.sourceName.startsWith(arguments[0]));
    return own.map((error) => error.errorMessage + ' (' + error.sourceName + ':' + error.lineNumber + ')');
`;

class Page {
    constructor(connection, handle) {
        Object.assign(this, { connection, handle });
    }

    // A command to this page's tab.
    async send(command, given) {
        await this.connection.send('WebDriver:SwitchToWindow', { handle: this.handle, focus: true });
        return this.connection.send(command, given);
    }

    async go(url) {
        await this.send('WebDriver:Navigate', { url });
    }

    async reload() {
        await this.send('WebDriver:Refresh');
    }

    async run(text) {
        const given = { script: RUN, args: [text], sandbox: 'system', newSandbox: true, scriptTimeout: LIMIT };
        const { value: [fine, said] } = await this.send('WebDriver:ExecuteAsyncScript', given);
        if (!fine) throw new Error('in the page: ' + said);
        return said === null ? undefined : said;
    }

    async evaluate(asked, ...given) {
        return answerOf(await this.run(callOf(asked, given)));
    }

    until(condition, ...given) {
        return until(this, condition, given);
    }

    act(source) {
        return this.send('WebDriver:PerformActions', { actions: [source] });
    }

    press(key, held = {}) {
        const also = Object.keys(HELD).filter((name) => held[name]).map((name) => HELD[name]);
        const keys = [...also, keyOf(key).letter];
        const down = keys.map((value) => ({ type: 'keyDown', value }));
        const up = keys.reverse().map((value) => ({ type: 'keyUp', value }));
        return this.act({ type: 'key', id: 'keyboard', actions: [...down, ...up] });
    }

    async type(text) {
        for (const key of keysOf(text)) await this.press(key);
    }

    async click(selector, options) {
        const { x, y } = await this.evaluate(middleOf, selector);
        await this.clickAt(x, y, options);
    }

    clickAt(x, y, { count = 1 } = {}) {
        const once = [{ type: 'pointerDown', button: 0 }, { type: 'pointerUp', button: 0 }];
        const move = { type: 'pointerMove', x: Math.round(x), y: Math.round(y), duration: 0, origin: 'viewport' };
        const actions = [move, ...Array.from({ length: count }, () => once).flat()];
        return this.act({ type: 'pointer', id: 'mouse', parameters: { pointerType: 'mouse' }, actions });
    }

    async screenshot(file, { whole = false } = {}) {
        const { value } = await this.send('WebDriver:TakeScreenshot', { full: whole });
        await writeFile(file, Buffer.from(value, 'base64'));
    }

    // What a script gives that runs in Firefox itself.
    async inside(script, ...args) {
        await this.send('Marionette:SetContext', { value: 'chrome' });
        const { value } = await this.connection.send('WebDriver:ExecuteScript', { script, args });
        await this.connection.send('Marionette:SetContext', { value: 'content' });
        return value;
    }

    // The errors that Firefox has noted of files beside the page's.
    async complained() {
        const folder = await this.evaluate(() => location.href.replace(/[^/]*([#?].*)?$/, ''));
        return this.inside(COMPLAINTS, folder);
    }

    // A window is not made as narrow as a telephone is: it has 500 at least.
    async emulate({ width = 1024, height = 768, dark = false } = {}) {
        await this.inside('Services.prefs.setIntPref("layout.css.prefers-color-scheme.content-override", arguments[0])', dark ? 0 : 1);
        const frame = await this.evaluate(() => [outerWidth - innerWidth, outerHeight - innerHeight]);
        await this.send('WebDriver:SetWindowRect', { width: width + frame[0], height: height + frame[1] });
    }

    close() {
        return this.send('WebDriver:CloseWindow');
    }
}

// The port is in the profile once Firefox listens there.
async function portOf(folder, ended) {
    let gone = false;
    ended.then(() => gone = true);
    for (const end = Date.now() + LIMIT; Date.now() < end && !gone; await after(20)) {
        const port = Number(await readFile(join(folder, 'MarionetteActivePort'), 'utf8').catch(() => ''));
        if (port > 0) return port;
    }
    throw new Error('Firefox does not listen');
}

// A browser with a profile of its own.
export async function launch() {
    const { folder, remove } = profileFolder();
    const lines = Object.entries(PREFERENCES).map(([name, value]) => `user_pref(${JSON.stringify(name)}, ${JSON.stringify(value)});\n`);
    await writeFile(join(folder, 'user.js'), lines.join(''));
    const { ended, end } = started(program(), ['--headless', '--marionette', '--remote-allow-system-access', '--no-remote', '-profile', folder], 'ignore');
    const connection = new Connection(connect(await portOf(folder, ended), '127.0.0.1'));
    await connection.greeted;
    await connection.send('WebDriver:NewSession', { pageLoadStrategy: 'normal' });
    return {
        async open(url, seen = {}) {
            const { handle } = await connection.send('WebDriver:NewWindow', { type: 'tab', focus: true });
            const page = new Page(connection, handle);
            await page.emulate(seen);
            await page.go(url);
            return page;
        },
        async close() {
            await connection.send('Marionette:Quit', { flags: ['eForceQuit'] }).catch(() => {});
            await end();
            remove();
        },
    };
}
