// No clock runs in the page: none is named in its scripts, and none is asked while it is used.
import assert from 'node:assert/strict';
import { readdirSync, readFileSync } from 'node:fs';
import { resolve } from 'node:path';
import { test } from 'node:test';
import { SINGLE, SITE } from './built.mjs';
import { cell, inChromium, INVOICE, retype, seen, typeCodes } from './learner.mjs';

const CLOCKS = new RegExp([
    '\\bnew Date\\b', '\\bDate\\s*[.(]', '\\bperformance\\b', '\\bset(Timeout|Interval|Immediate)\\b', '\\brequest(AnimationFrame|IdleCallback)\\b',
    'console\\.time', '\\.timeStamp\\b', '\\bTemporal\\b',
].join('|'));

const on = inChromium();
const scripts = readdirSync(SITE).filter((file) => file.endsWith('.js') && !['module.js', 'texts.js'].includes(file));

for (const file of scripts) {
    test(`${file} names no clock`, () => {
        readFileSync(resolve(SITE, file), 'utf8').split('\n').forEach((line, i) => assert.doesNotMatch(line, CLOCKS, `line ${i + 1}`));
    });
}

test('the page in one file has the same scripts', () => {
    const single = readFileSync(new URL(SINGLE), 'utf8');
    assert.ok(scripts.length >= 13);
    for (const file of scripts) assert.ok(single.includes(readFileSync(resolve(SITE, file), 'utf8')), file);
    assert.equal(single.match(/<script>/g).length, readdirSync(SITE).filter((file) => file.endsWith('.js')).length);
});

// Runs before the page's own scripts: every way to the time, and to waiting for it, notes that it was taken.
function watchClocks() {
    const taken = [];
    const note = (name) => taken.push(name + ' ' + new Error().stack.split('\n')[3]);
    const RealDate = Date;
    const watched = (owner, name) => {
        const real = owner[name];
        if (typeof real === 'function') owner[name] = (...given) => note(name) && real.apply(owner, given);
    };
    for (const name of ['setTimeout', 'setInterval', 'requestAnimationFrame', 'requestIdleCallback']) watched(window, name);
    watched(performance, 'now');
    for (const name of ['time', 'timeEnd', 'timeLog', 'timeStamp']) watched(console, name);
    window.Date = new Proxy(RealDate, {
        construct: (target, given) => note('new Date') && Reflect.construct(target, given),
        apply: () => note('Date') && RealDate(),
        get: (target, name) => (name === 'now' && note('Date.now'), target[name]),
    });
    const { get } = Object.getOwnPropertyDescriptor(Event.prototype, 'timeStamp');
    Object.defineProperty(Event.prototype, 'timeStamp', { get() { return note('timeStamp') && get.call(this); } });
    window.clocksTaken = taken;
}

test('nothing asks for the time or waits while the page is used', async (t) => {
    const page = await on(t);
    await page.send('Page.addScriptToEvaluateOnNewDocument', { source: `(${watchClocks})()` });
    await page.reload();
    await page.until(() => document.querySelector('#codes .code') !== null);
    await retype(page, '#record', INVOICE);
    await typeCodes(page, ['F;1;2;*', 'D']);
    await page.click(cell(4, -1));
    await page.click(cell(3, 0));
    await page.type('x]\n');
    await page.press('Escape');
    await retype(page, '#budget', '10');
    await page.click('#open-reference');
    await page.type('budget');
    await page.press('Escape');
    await page.click('#open-link');
    await page.type('title');
    await page.click('#link-copy');
    await page.click('#exercise-list li:nth-child(1) a');
    await page.until(() => document.getElementById('task-title').textContent.startsWith('1. '));
    await typeCodes(page, ['T3,4']);
    assert.match((await seen(page)).verdict, /^Solved/);
    assert.deepEqual(await page.evaluate(() => clocksTaken), []);
    await page.evaluate(() => { setTimeout(() => {}); Date.now(); performance.now(); });
    assert.equal((await page.evaluate(() => clocksTaken)).length, 3, 'it would have been noticed');
});

test('the line that a teacher can quote is there', async (t) => {
    const page = await on(t);
    const line = 'No clock runs here: work is counted in steps, so the same exercise gives the same steps and the same verdict on every laptop.';
    assert.equal(await page.evaluate(() => document.getElementById('no-clock').textContent), line);
});
