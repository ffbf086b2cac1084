// What the drivers of both browsers share: the program, its profile, functions that are sent to a page, keys.
import { spawn } from 'node:child_process';
import { accessSync, constants, mkdtempSync, rmSync } from 'node:fs';
import { tmpdir } from 'node:os';
import { delimiter, join } from 'node:path';
import { setTimeout as after } from 'node:timers/promises';

// How long anything may take, in milliseconds: a test that waits so long has failed, on a slow and busy machine too.
export const LIMIT = 60000;
const POLL = 10;

// The first of these programs that is on the PATH, null if none is.
export function programOf(names) {
    const places = (process.env.PATH || '').split(delimiter).filter(Boolean);
    const paths = names.flatMap((name) => places.map((place) => join(place, name)));
    return paths.find((path) => {
        try {
            accessSync(path, constants.X_OK);
            return true;
        } catch (_) {
            return false;
        }
    }) || null;
}

// A folder of its own for a browser's profile; it goes with this process at the latest.
export function profileFolder() {
    const folder = mkdtempSync(join(tmpdir(), 'practice-'));
    const remove = () => rmSync(folder, { recursive: true, force: true, maxRetries: 20, retryDelay: 50 });
    process.once('exit', remove);
    return { folder, remove };
}

// A browser's process: it ends with this one at the latest, and `ended` is kept when it has.
export function started(program, words, stdio) {
    const child = spawn(program, words, { stdio, detached: true });
    // with its whole group: Debian's command is a script that runs the browser
    const kill = () => {
        try {
            process.kill(-child.pid, 'SIGKILL');
        } catch (_) {
            // it has ended
        }
    };
    // before the profile goes
    process.prependOnceListener('exit', kill);
    const ended = new Promise((resolve) => child.once('exit', resolve).once('error', resolve));
    const end = async () => {
        if (await within(ended.then(() => true), () => false) === false) kill();
        await ended;
    };
    return { child, ended, end };
}

// A promise, or what `late` gives or throws where it takes too long.
export async function within(promise, late, limit = LIMIT) {
    const timer = new AbortController();
    const waited = after(limit, null, { signal: timer.signal }).then(late, () => {});
    try {
        return await Promise.race([promise, waited]);
    } finally {
        timer.abort();
    }
}

// The text of a call of `asked` in the page; what it gives comes back as JSON, so that both browsers give the same.
export function callOf(asked, given) {
    return `(async () => JSON.stringify(await (${asked})(...${JSON.stringify(given)})))()`;
}

export const answerOf = (json) => json === undefined || json === null ? undefined : JSON.parse(json);

// Waits until `condition` gives something that counts as true in the page, and gives that. One that throws is not fulfilled yet.
export async function until(page, condition, given, limit = LIMIT) {
    const end = Date.now() + limit;
    let last;
    do {
        last = await page.evaluate(condition, ...given).catch((error) => error);
        if (last && !(last instanceof Error)) return last;
        await after(POLL);
    } while (Date.now() < end);
    throw new Error(`not so after ${limit / 1000} s: ${condition}\nlast it gave ${last}`);
}

// Runs in the page: the middle of the element as it is seen, scrolled to where it can be clicked.
export function middleOf(selector) {
    const element = document.querySelector(selector);
    if (!element) throw new Error('nothing in the page is ' + selector);
    element.scrollIntoView({ block: 'center', inline: 'center', behavior: 'instant' });
    const box = element.getBoundingClientRect();
    const [x, y] = [box.left + box.width / 2, box.top + box.height / 2];
    const top = document.elementFromPoint(x, y);
    // a label takes the clicks of its field
    if (!top || !(element.contains(top) || top.contains(element))) throw new Error(selector + ' cannot be clicked: something else is there');
    return { x, y };
}

// Keys that are no characters: the number of DOM events, the text that they bring, and WebDriver's letter.
const NAMED = {
    Backspace: [8, '', '\ue003'],
    Tab: [9, '', '\ue004'],
    Enter: [13, '\r', '\ue006'],
    Escape: [27, '', '\ue00c'],
    PageUp: [33, '', '\ue00e'],
    PageDown: [34, '', '\ue00f'],
    End: [35, '', '\ue010'],
    Home: [36, '', '\ue011'],
    ArrowLeft: [37, '', '\ue012'],
    ArrowUp: [38, '', '\ue013'],
    ArrowRight: [39, '', '\ue014'],
    ArrowDown: [40, '', '\ue015'],
    Insert: [45, '', '\ue016'],
    Delete: [46, '', '\ue017'],
};

function characterKey(key) {
    if (/^[a-z]$/i.test(key)) return { key, code: 'Key' + key.toUpperCase(), number: key.toUpperCase().charCodeAt(0), text: key, letter: key };
    if (/^[0-9]$/.test(key)) return { key, code: 'Digit' + key, number: key.charCodeAt(0), text: key, letter: key };
    return { key, code: key === ' ' ? 'Space' : '', number: key === ' ' ? 32 : 0, text: key, letter: key };
}

// A key by its name, as KeyboardEvent.key has it.
export function keyOf(key) {
    if (Array.from(key).length === 1) return characterKey(key);
    const numbered = /^F([1-9]|1[0-2])$/.exec(key);
    if (numbered) return { key, code: key, number: 111 + Number(numbered[1]), text: '', letter: String.fromCharCode(0xe030 + Number(numbered[1])) };
    if (!NAMED[key]) throw new Error('no key is named ' + key);
    const [number, text, letter] = NAMED[key];
    return { key, code: key, number, text, letter };
}

// The keys that type a text.
export const keysOf = (text) => Array.from(text, (letter) => letter === '\n' ? 'Enter' : letter);
