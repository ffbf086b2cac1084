// An attribute of 16,000 elements: only what is seen is drawn, its end can be reached, and how long a key takes is told (and not judged).
import assert from 'node:assert/strict';
import { after, before, test } from 'node:test';
import * as chromium from './chromium.mjs';
import { cell, fillIn, linkOf, opened, REFUSALS, seen, typeCodes } from './learner.mjs';

const COUNT = 16000;
const MOST_ROWS = 40;
const LONG = 'K1^' + Array.from({ length: COUNT }, (_, i) => i % 10).join(']');

let browser;
let page;
before(async () => {
    browser = await chromium.launch();
    page = await opened(browser, linkOf(LONG));
    await page.evaluate(watchKeys);
});
after(() => browser.close());

// Runs in the page: notes for each key how long its own work takes, and how long it is until its answer is drawn.
function watchKeys() {
    window.keyTimes = [];
    window.addEventListener('keydown', () => {
        const begun = performance.now();
        const time = { worked: 0, drawn: 0 };
        const { port1, port2 } = new MessageChannel();
        window.addEventListener('input', () => time.worked = performance.now() - begun, { once: true });
        // a message that is sent before drawing arrives behind it
        port1.onmessage = () => window.keyTimes.push({ ...time, drawn: performance.now() - begun });
        requestAnimationFrame(() => port2.postMessage(null));
    }, { capture: true });
}

// Types a last letter behind a code some times, and tells what a key took.
async function timed(t, name, front, last) {
    await typeCodes(page, [front]);
    await page.evaluate(() => window.keyTimes = []);
    for (let i = 0; i < 5; i++) {
        await page.press(last);
        await page.press('Backspace');
    }
    await page.press(last);
    const times = await page.until(() => window.keyTimes.length >= 11 && window.keyTimes);
    const typed = times.filter((_, i) => i % 2 === 0);
    const middle = (part) => typed.map((time) => time[part]).sort((a, b) => a - b)[typed.length >> 1].toFixed(1);
    const [drawn, worked] = [middle('drawn'), middle('worked')];
    t.diagnostic(`REPORT ${COUNT} elements, ${name}: from the key to the answer drawn ${drawn} ms, of which ${worked} ms are the page's work`);
}

const rowsDrawn = () => page.evaluate(() => ({
    grid: document.querySelectorAll('#grid [role=row]').length,
    elements: document.querySelectorAll('#elements-table [role=row]').length,
    nodes: document.querySelectorAll('*').length,
    cells: Number(document.getElementById('grid').getAttribute('aria-rowcount')),
}));

const lastRow = (id) => page.evaluate((name) => {
    const rows = Array.from(document.querySelectorAll(`#${name} [role=row]`)).sort((one, other) => one.ariaRowIndex - other.ariaRowIndex);
    return Array.from(rows[rows.length - 1].children, (node) => node.textContent);
}, id);

test('only the rows that are seen are drawn', async () => {
    const { grid, elements, nodes, cells } = await rowsDrawn();
    assert.ok(grid > 5 && grid < MOST_ROWS, `${grid} rows of the grid`);
    assert.ok(elements > 5 && elements < MOST_ROWS, `${elements} rows of the elements`);
    assert.ok(nodes < 1500, `${nodes} nodes`);
    assert.equal(cells, COUNT + 2, 'the head, the values, and the next value');
    const now = await seen(page);
    assert.deepEqual([now.place, now.record.length], ['all of attribute 1: 16,000 elements', LONG.length]);
    assert.match(now.answer, /^0\]1\]2.* … 31,999 bytes in all$/);
});

test('scrolling comes to the last element', async () => {
    await typeCodes(page, ['F;LPV;\'a\';:']);
    for (const id of ['grid', 'elements-table']) {
        await page.evaluate((name) => { document.getElementById(name).scrollTop = 1e9; }, id);
        await page.until((name) => document.querySelector(`#${name} [aria-rowindex="16001"]`) !== null, id);
    }
    assert.deepEqual(await lastRow('elements-table'), ['16000', '9', '9a']);
    assert.deepEqual((await lastRow('grid'))[0], '16001 +');
    assert.ok((await rowsDrawn()).grid < MOST_ROWS);
    await page.click(cell(1, COUNT - 1));
    assert.deepEqual([(await seen(page)).address, (await seen(page)).answer], ['1,16000,0', '9a']);
    await page.click(cell(1, COUNT - 1));
    assert.equal((await seen(page)).address, '1,0,0');
});

test('a key among 16,000 elements: MR2, whose answer is too long', async (t) => {
    await timed(t, 'MR2', 'MR', '2');
    assert.equal((await seen(page)).said, REFUSALS.get(16).when);
    await typeCodes(page, ['MR']);
    assert.match((await seen(page)).answer, /^0\]1\]2.* … 31,999 bytes in all$/);
});

test('a key among 16,000 elements: T2,3', async (t) => {
    await timed(t, 'T2,3', 'T2,', '3');
    assert.match((await seen(page)).answer, /^\]{100}/);
});

test('a key among 16,000 elements: F;1, which is refused for budget', async (t) => {
    await timed(t, 'F;1', 'F;', '1');
    const { lines: [line], refusal } = await seen(page);
    // each load costs the 32,002 bytes of the record, 1 and the byte loaded
    assert.deepEqual([line.refusal[0], line.refusal[1]], [REFUSALS.get(15).when, 'It is the element at 1,32,1. This code was given 1, 1 byte.']);
    assert.equal(refusal[1], 'Code 1, on the element at 1,32,1. What to do stands there.');
});

test('a key among 16,000 elements: a refusal at the last one', async (t) => {
    await fillIn(page, '#record', LONG.slice(0, -1) + 'x');
    await timed(t, 'MR2, refused at the last one', 'MR', '2');
    const { lines: [line] } = await seen(page);
    assert.deepEqual([line.refusal[0], line.refusal[1]], [REFUSALS.get(12).when, 'It is the element at 1,16000,1. This code was given x, 1 byte.']);
});

test('16,000 subvalues in 8,000 values are found where they are', async () => {
    await fillIn(page, '#record', 'K1^' + Array.from({ length: COUNT / 2 }, (_, i) => `${i % 10}\\x`).join(']'));
    await typeCodes(page, ['L']);
    await page.evaluate(() => { document.getElementById('elements-table').scrollTop = 1e9; });
    await page.until(() => document.querySelector('#elements-table [aria-rowindex="16001"]') !== null);
    assert.deepEqual(await lastRow('elements-table'), ['8000.2', 'x', '1']);
    assert.deepEqual(page.complaints, []);
});
