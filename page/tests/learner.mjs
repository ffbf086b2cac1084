// A learner at the page: what is opened, typed, clicked and seen. Fields are filled by real keys.
import { readFileSync } from 'node:fs';
import { resolve } from 'node:path';
import { after, before } from 'node:test';
import { REPOSITORY, SINGLE } from './built.mjs';
import * as chromium from './chromium.mjs';

export const WIDE = { width: 1400, height: 1000 };
export const INVOICE = 'INV7^7500]1250\\300^4]2\\10^SMITH, jane^10000';

export const read = (file) => readFileSync(resolve(REPOSITORY, file), 'utf8');

// The page by its file, once it answers; `fragment` is what a link has behind the file, from its # on.
export async function opened(browser, fragment = '', seen = WIDE) {
    const shown = await browser.open(SINGLE + fragment, seen);
    await shown.evaluate(() => page.ready.then(() => true));
    return shown;
}

// Chromium for the tests of a file; gives what opens the page for one of them.
export function inChromium() {
    let browser;
    before(async () => browser = await chromium.launch());
    after(() => browser.close());
    return async (t, fragment, seen) => {
        const shown = await opened(browser, fragment, seen);
        t.after(() => shown.close());
        return shown;
    };
}

// What stands behind the file in a link with a record, an address and codes; `said` may have more names, each with its value as it is typed.
export function linkOf(record, at = '1,0,0', codes = [], said = {}) {
    const pairs = [['record', record], ['at', at], ...codes.map((code) => ['code', code]), ...Object.entries(said)];
    return '#' + pairs.map(([name, value]) => name + '=' + encodeURIComponent(value)).join('&');
}

// What stands in the page now. Texts are as they are shown, a refusal is its sentences.
export const seen = (page) => page.evaluate(() => {
    const textOf = (node) => node ? node.textContent : null;
    const sentences = (node) => node ? Array.from(node.querySelectorAll('p'), textOf) : null;
    const named = (id) => document.getElementById(id);
    const isRefused = named('answer').classList.contains('refused');
    return {
        lines: Array.from(document.querySelectorAll('#codes .line'), (line) => ({
            code: line.querySelector('.code').value,
            invalid: line.querySelector('.code').getAttribute('aria-invalid') === 'true',
            bad: line.classList.contains('bad'),
            value: textOf(line.querySelector('.stands .value')),
            steps: textOf(line.querySelector('.stands .steps')),
            formula: textOf(line.querySelector('.formula code')),
            refusal: sentences(line.querySelector('.after .refusal')),
            elm: textOf(line.querySelector('.after .refusal mark')),
        })),
        answer: isRefused ? null : textOf(document.querySelector('#answer-value .value')),
        refusal: isRefused ? sentences(named('answer-value')) : null,
        steps: textOf(named('steps')),
        said: textOf(named('said')),
        record: named('record').value,
        address: named('address').value,
        place: textOf(named('address-words')),
        picked: Array.from(document.querySelectorAll('#grid .cell[aria-selected=true]'), textOf),
        verdict: textOf(named('verdict')),
        edit: named('edit-refusal').hidden ? null : sentences(named('edit-refusal')),
    };
});

// Types over what stands in a field.
export async function retype(page, selector, text) {
    await page.click(selector);
    await page.press('a', { ctrl: true });
    await page.press('Backspace');
    await page.type(text);
}

// Leaves one line, and types the codes over it, each on a line of its own.
export async function typeCodes(page, codes) {
    for (let count = (await seen(page)).lines.length; count > 1; count--) await page.click(`[aria-label="Remove code ${count}"]`);
    await retype(page, '[aria-label="Code 1"]', codes.join('\n'));
}

// Puts a text that would take too long to type into a field, but for its last letter, which is typed.
export async function fillIn(page, selector, text) {
    await page.click(selector);
    await page.evaluate((name, front) => {
        const field = document.querySelector(name);
        field.value = front;
        field.setSelectionRange(front.length, front.length);
    }, selector, text.slice(0, -1));
    await page.press(text.slice(-1));
}

// Puts a text on the clipboard, and pastes it where the keys are.
export async function paste(page, text) {
    await page.evaluate((copied) => {
        const before = document.activeElement;
        const field = document.body.appendChild(document.createElement('textarea'));
        field.value = copied;
        field.select();
        document.execCommand('copy');
        field.remove();
        before.focus();
    }, text);
    const key = { key: 'v', code: 'KeyV', modifiers: 2, windowsVirtualKeyCode: 86 };
    await page.send('Input.dispatchKeyEvent', { ...key, type: 'rawKeyDown', commands: ['paste'] });
    await page.send('Input.dispatchKeyEvent', { ...key, type: 'keyUp' });
}

// A cell of the grid by its attribute and its row, which is -1 for the head.
export const cell = (a, row) => `#grid [data-a="${a}"][data-row="${row}"]`;

// docs/REFUSALS.md, as the page shows it: when a refusal is given, and what to do.
export const REFUSALS = new Map(Array.from(read('docs/REFUSALS.md').matchAll(/^\| ([0-9]+) \| (.*) \| (.*) \|$/gm), ([, number, when, advice]) => {
    const shown = (text) => text.replace(/`/g, '').replace('docs/CODES.md', 'the reference');
    return [Number(number), { when: `Refusal ${number}: ${shown(when)}`, advice: shown(advice) }];
}));

// 1,000,000
export const grouped = (number) => Number(number).toLocaleString('en-US');
export const counted = (number) => grouped(number) + (Number(number) === 1 ? ' step' : ' steps');
