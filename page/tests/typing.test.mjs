// What a learner types, key by key, and what stands in the page behind each key.
import assert from 'node:assert/strict';
import { test } from 'node:test';
import { counted, inChromium, INVOICE, linkOf, paste, REFUSALS, retype, seen, typeCodes } from './learner.mjs';

const on = inChromium();
const invoice = (t, codes = [], at = '1,0,0', said = {}) => on(t, linkOf(INVOICE, at, codes, said));
const textsOf = ({ lines }) => lines.map(({ code }) => code);
const focused = (page) => page.evaluate(() => document.activeElement.getAttribute('aria-label') || document.activeElement.id);

// Each key, and behind it the answer and the steps, or the refusal; `line` is the one that the keys go to.
async function typeKeys(page, line, keys) {
    for (const [key, answer, steps] of keys) {
        await page.press(key);
        const now = await seen(page);
        const told = now.lines[line - 1];
        if (typeof answer === 'string') {
            assert.deepEqual([now.answer, now.said], [answer, `Answer ${answer}, ${counted(steps)}`], `behind ${told.code}`);
            assert.ok(now.steps.startsWith(counted(steps) + '.'), now.steps);
            if (told.code) assert.deepEqual([told.value, told.steps, told.bad], [answer, counted(steps), false], `behind ${told.code}`);
        } else {
            assert.deepEqual([told.refusal[0], now.refusal[0], now.said], Array(3).fill(REFUSALS.get(answer).when), `behind ${told.code}`);
            assert.deepEqual([told.bad, told.invalid, now.answer], [true, true, null]);
            assert.equal(now.steps, 'Nothing ran: 0 steps.');
        }
    }
}

test('two codes, key by key', async (t) => {
    const page = await invoice(t);
    await page.click('[aria-label="Code 1"]');
    await typeKeys(page, 1, [
        ['F', 6], [';', 6], ['1', '7500]1250\\300', 143], [';', 6], ['2', 18], [';', 6], ['*', '30000]2500\\3000', 310],
    ]);
    await typeKeys(page, 2, [
        ['Enter', '30000]2500\\3000', 310], ['M', 6], ['R', '30000]2500\\3000', 339], ['2', '300.00]25.00\\30.00', 342], [',', '300.00]25.00\\30.00', 342],
        ['$', '$300.00]$25.00\\$30.00', 345], ['Backspace', '300.00]25.00\\30.00', 342],
    ]);
    const { lines } = await seen(page);
    assert.deepEqual(lines.map(({ code, value, steps }) => [code, value, steps]), [
        ['F;1;2;*', '30000]2500\\3000', '310 steps'], ['MR2,', '300.00]25.00\\30.00', '342 steps'],
    ]);
});

test('lines are made, left, joined and removed by keys', async (t) => {
    const page = await invoice(t);
    await page.click('[aria-label="Code 1"]');
    await page.type('MCN\nT2\n');
    assert.deepEqual(textsOf(await seen(page)), ['MCN', 'T2', '']);
    await page.press('Backspace');
    assert.deepEqual([textsOf(await seen(page)), await focused(page)], [['MCN', 'T2'], 'Code 2']);
    for (const [key, name] of [['ArrowUp', 'Code 1'], ['ArrowUp', 'Code 1'], ['ArrowDown', 'Code 2'], ['ArrowDown', 'Code 2']]) {
        await page.press(key);
        assert.equal(await focused(page), name, key);
    }
    await page.press('ArrowUp');
    await page.type('\nL');
    assert.deepEqual(textsOf(await seen(page)), ['MCN', 'L', 'T2'], 'a line is made behind the one that has the keys');
    await page.click('[aria-label="Remove code 2"]');
    assert.deepEqual([textsOf(await seen(page)), await focused(page)], [['MCN', 'T2'], 'Code 1']);
    await page.click('#add-code');
    await page.type('L');
    assert.deepEqual(textsOf(await seen(page)), ['MCN', 'T2', 'L']);
    for (const left of [2, 1, 1]) {
        await page.click('[aria-label="Remove code 1"]');
        assert.equal((await seen(page)).lines.length, left);
    }
    await page.press('Backspace');
    assert.deepEqual([textsOf(await seen(page)), (await seen(page)).answer], [[''], '7500]1250\\300'], 'the last line stays');
});

test('an empty line between codes is none', async (t) => {
    const page = await invoice(t, ['F;1;2;*', 'MR2,$']);
    await page.click('[aria-label="Code 1"]');
    await page.press('Enter');
    const { lines, answer } = await seen(page);
    assert.deepEqual([lines.length, lines[1].value, answer], [3, null, '$300.00]$25.00\\$30.00']);
});

test('several lines that are pasted become several codes', async (t) => {
    const page = await invoice(t);
    await page.click('[aria-label="Code 1"]');
    await paste(page, 'F;1;2;*\r\n\nMR2,$\n');
    const now = await seen(page);
    assert.deepEqual([textsOf(now), now.answer, await focused(page)], [['F;1;2;*', 'MR2,$'], '$300.00]$25.00\\$30.00', 'Code 2']);
    await paste(page, 'T2\nL');
    assert.deepEqual(textsOf(await seen(page)), ['F;1;2;*', 'MR2,$', 'T2', 'L'], 'they come behind a line that has a code');
    await page.click('#add-code');
    await paste(page, 'MCU\n');
    assert.deepEqual(textsOf(await seen(page)).slice(-1), ['MCU']);
});

test('a record typed as text, its marks as they are drawn', async (t) => {
    const page = await invoice(t, ['L']);
    await retype(page, '#record', 'K1^10]2\\3');
    const now = await seen(page);
    assert.deepEqual([now.answer, now.place, now.picked], ['2]1\\1', 'all of attribute 1: 3 elements', ['10', '2', '3']]);
    await page.type('^é');
    await retype(page, '#address', '2,0,0');
    assert.equal((await seen(page)).answer, '2', 'é is two bytes');
});

test('line ends in a pasted record are left out', async (t) => {
    const page = await invoice(t);
    await page.click('#record');
    await page.press('a', { ctrl: true });
    await paste(page, 'K1^10]\r\n20^3\n');
    const now = await seen(page);
    assert.deepEqual([now.record, now.answer], ['K1^10]20^3', '10]20']);
    await page.press('Enter');
    assert.equal((await seen(page)).record, 'K1^10]20^3');
});

test('a budget that is too small names the element that it was reached at', async (t) => {
    const page = await invoice(t, ['F;1;2;*', 'MR2,$']);
    await retype(page, '#budget', '345');
    assert.match((await seen(page)).steps, /^345 steps\. .* 30,990; the budget is 345\.$/);
    await retype(page, '#budget', '344');
    const { lines, refusal, steps } = await seen(page);
    const { when, advice } = REFUSALS.get(15);
    assert.deepEqual(lines.map(({ bad }) => bad), [false, true]);
    const told = lines[1].refusal;
    assert.deepEqual([told[0], told[1], told[told.length - 1]], [when, 'It is the element at 1,2,2. This code was given 3000, 4 bytes.', advice]);
    assert.deepEqual(refusal, [when, 'Code 2, on the element at 1,2,2. What to do stands there.']);
    assert.match(steps, /^334 steps\./);
    await retype(page, '#budget', '44');
    assert.match((await seen(page)).lines[0].refusal[1], /^It is the element at 1,1,1\. This code was given 7500, 4 bytes\.$/);
});

test('a budget that is none is said to be none, and the old one stands', async (t) => {
    const page = await invoice(t, ['F;1;2;*'], '1,0,0', { budget: 345 });
    assert.equal(await page.evaluate(() => document.getElementById('budget').value), '345');
    for (const text of ['abc', '1.5', '-1', '100000001', '']) {
        await retype(page, '#budget', text);
        const told = await page.evaluate(() => [document.getElementById('budget-words').textContent, document.getElementById('budget').ariaInvalid]);
        assert.deepEqual(told[1], 'true', text);
        assert.match(told[0], /^A budget is a whole number up to 100,000,000; [0-9,]+ still stands\.$/);
    }
    await retype(page, '#budget', ' 1,000 ');
    assert.match((await seen(page)).steps, /the budget is 1,000\.$/);
});

test('an A code shows its F text as it is typed, and a bad one its refusal', async (t) => {
    const page = await invoice(t);
    await page.click('[aria-label="Code 1"]');
    const typed = [['A', 6], ['1', 'F;1'], ['*', 6], ['2', 'F;1;2;*'], ['+', 6], ['(', 6], ['1', 6], [')', 'F;1;2;*;1;+']];
    for (const [key, told] of typed) {
        await page.press(key);
        const { lines: [line], said } = await seen(page);
        if (told === 6) assert.deepEqual([line.formula, line.refusal[0], said], [null, REFUSALS.get(6).when, REFUSALS.get(6).when], line.code);
        else assert.deepEqual([line.formula, line.bad], [told, false], line.code);
    }
    await typeCodes(page, ['A' + '1:('.repeat(16) + '1' + ')'.repeat(16)]);
    assert.equal((await seen(page)).lines[0].refusal[0], REFUSALS.get(7).when);
});

test('a date typed for a D code gives its day, or a refusal', async (t) => {
    const page = await invoice(t, ['D', 'MCU'], '4,0,0');
    const day = () => page.evaluate(() => document.querySelector('.date output').textContent);
    const isShown = () => page.evaluate(() => Array.from(document.querySelectorAll('.date'), (node) => !node.hidden));
    assert.deepEqual(await isShown(), [true, false], 'for a D code alone');
    await retype(page, '[aria-label="Date typed for code 1"]', '18 MAY 1995');
    assert.equal(await day(), 'is day 10000');
    await retype(page, '[aria-label="Date typed for code 1"]', '30 DEC 1967');
    assert.equal(await day(), 'is day -1');
    await retype(page, '[aria-label="Date typed for code 1"]', '30 FEB 1995');
    assert.equal(await day(), REFUSALS.get(12).when + REFUSALS.get(12).advice);
    await retype(page, '[aria-label="Code 1"]', 'D2/');
    await retype(page, '[aria-label="Date typed for code 1"]', '05/18/95');
    assert.equal(await day(), 'is day 10000');
    assert.equal((await seen(page)).answer, '05/18/95');
});
