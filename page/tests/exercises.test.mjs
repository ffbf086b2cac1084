// The ten exercises, and the links that a teacher sends.
import assert from 'node:assert/strict';
import { test } from 'node:test';
import { SINGLE } from './built.mjs';
import { cell, inChromium, linkOf, retype, seen, typeCodes } from './learner.mjs';

const on = inChromium();
const listed = (page) => page.evaluate(() => exercises);
const textOf = (page, id) => page.evaluate((name) => document.getElementById(name).hidden ? null : document.getElementById(name).textContent, id);

const taskOf = (page) => Promise.all(['task-title', 'task-text', 'wanted'].map((id) => textOf(page, id)));

// Opens an exercise by its link in the list; the list is closed while another one is open.
async function choose(page, number) {
    if (!await page.evaluate(() => document.getElementById('exercises').open)) await page.click('#exercises summary');
    await page.click(`#exercise-list li:nth-child(${number}) a`);
    await page.until((front) => document.getElementById('task-title').textContent.startsWith(front), number + '. ');
}

test('ten exercises are listed, and they cover every kind of code and a refusal', async (t) => {
    const page = await on(t);
    const all = await listed(page);
    const names = await page.evaluate(() => Array.from(document.querySelectorAll('#exercise-list .name'), (node) => node.textContent));
    assert.deepEqual(names, all.map(({ title }, i) => `${i + 1}. ${title}`));
    assert.equal(all.length, 10);
    const used = all.flatMap(({ solution }) => solution);
    for (const kind of ['F;', 'G', 'T', 'L', 'MC', 'ML', 'MR', 'MX', 'MY', 'D']) assert.ok(used.some((code) => code.startsWith(kind)), kind);
    await choose(page, 10);
    assert.match((await seen(page)).said, /^Refusal 7:/);
});

test('each is opened, not solved at its start, and solved by its solution', async (t) => {
    const page = await on(t);
    const all = await listed(page);
    for (const [i, { title, task, record, at, codes, solution, answer }] of all.entries()) {
        await choose(page, i + 1);
        const start = await seen(page);
        assert.deepEqual([start.record, start.address, start.lines.map(({ code }) => code)], [record, at, codes]);
        assert.deepEqual(await taskOf(page), [`${i + 1}. ${title}`, task, 'Wanted: ' + answer]);
        assert.equal(start.verdict, 'Not yet the answer that is wanted.');
        assert.notEqual(start.answer, answer);
        await typeCodes(page, solution);
        const now = await seen(page);
        const [, steps] = /^([0-9,]+) steps\./.exec(now.steps);
        assert.deepEqual([now.answer, now.verdict], [answer, `Solved: this is the answer that is wanted, in ${steps} steps.`], title);
        assert.equal(await textOf(page, 'solved-count'), `${i + 1} of 10 solved`);
    }
    assert.deepEqual(page.complaints, []);
});

test('an answer that is nearly the one that is wanted is not it', async (t) => {
    const page = await on(t);
    await choose(page, 1);
    for (const code of ['T3,3', 'T3,5', 'T3,4']) {
        await typeCodes(page, [code]);
        assert.equal((await seen(page)).verdict.startsWith('Solved'), code === 'T3,4', code);
    }
    await page.press('Enter');
    await page.type('MX');
    assert.equal((await seen(page)).verdict, 'Not yet the answer that is wanted.');
});

test('codes that leave an entry over solve nothing, though their last entry is the answer', async (t) => {
    const page = await on(t);
    const others = [[9, 'F;1;1;2;*;3RR;+'], [10, 'F;2R;1;2R;/'], [9, 'F;1;2;*;3RR;+;P'], [10, 'F;1;2R;/;1;_']];
    for (const [number, code] of others) {
        await choose(page, number);
        await typeCodes(page, [code, 'MR2$']);
        const { said, verdict, answer } = await seen(page);
        assert.deepEqual([said.slice(0, 11), verdict, answer], ['Refusal 18:', 'Not yet the answer that is wanted.', null], code);
        assert.equal(await textOf(page, 'solved-count'), '', code);
    }
    await typeCodes(page, ['F;1;2R;/', 'MR2$']);
    assert.match((await seen(page)).verdict, /^Solved/);
    const empty = await on(t, linkOf('K1^ab', '1,0,0', ['F;1;\'\''], { title: 'Nothing', wanted: '' }));
    assert.equal((await seen(empty)).verdict, 'Not yet the answer that is wanted.', 'a refusal is no answer of nothing');
    await typeCodes(empty, ['F;\'\'']);
    assert.match((await seen(empty)).verdict, /^Solved/);
});

test('a solution can be looked at, and the next exercise opened', async (t) => {
    const page = await on(t);
    await choose(page, 2);
    const shown = () => page.evaluate(() => document.getElementById('solution').open);
    assert.equal(await shown(), false, 'it is not shown by itself');
    await page.click('#solution summary');
    const codes = await page.evaluate(() => Array.from(document.querySelectorAll('#solution-codes code'), (node) => node.textContent));
    assert.deepEqual([await shown(), codes], [true, ['MCA', 'MCU']]);
    await page.click('#task-next a');
    await page.until(() => document.getElementById('task-title').textContent.startsWith('3. '));
    assert.equal(await shown(), false);
});

async function send(page, { title, task, withCodes }) {
    if (await textOf(page, 'link') === null) await page.click('#open-link');
    await retype(page, '#link-name', title);
    await retype(page, '#link-task', task);
    if (withCodes !== await page.evaluate(() => document.getElementById('link-codes').checked)) await page.click('#link-codes');
    return page.evaluate(() => document.getElementById('link-text').value);
}

test('what a teacher sends is what a learner opens', async (t) => {
    const teacher = await on(t, linkOf('ORD7^250]75\\80^3]4\\2', '1,2,0', ['F;1;2;*', 'MR2'], { budget: 5000 }));
    for (const withCodes of [false, true]) {
        const link = await send(teacher, { title: 'Order & <b>total</b> #7', task: 'Say 100% + "more": a^b]c\\d', withCodes });
        assert.ok(link.startsWith(SINGLE + '#'), link);
        const learner = await on(t, link.slice(SINGLE.length));
        const now = await seen(learner);
        assert.deepEqual([now.record, now.address, now.picked], ['ORD7^250]75\\80^3]4\\2', '1,2,0', ['75', '80']]);
        assert.deepEqual(now.lines.map(({ code }) => code), withCodes ? ['F;1;2;*', 'MR2'] : ['']);
        assert.equal(now.verdict.startsWith('Solved'), withCodes);
        assert.deepEqual(await taskOf(learner), ['Order & <b>total</b> #7', 'Say 100% + "more": a^b]c\\d', 'Wanted: 3.00\\1.60']);
        assert.equal(await learner.evaluate(() => document.getElementById('budget').value), '5,000');
    }
});

test('what is refused is sent with no answer that is wanted', async (t) => {
    const page = await on(t, linkOf('K1^10^3', '1,0,0', ['F;1;2']));
    const wantedIn = (link) => page.evaluate((text) => {
        const { wanted } = links.read(new URL(text).hash);
        return wanted && bytes.drawn(wanted);
    }, link);
    const note = 'The codes are refused, so that no answer is wanted. ';
    assert.equal(await wantedIn(await send(page, { title: 'one', task: '', withCodes: true })), null);
    assert.ok((await textOf(page, 'link-note')).startsWith(note));
    await typeCodes(page, ['F;1;2;+']);
    assert.equal(await wantedIn(await page.evaluate(() => document.getElementById('link-text').value)), '13');
    assert.ok(!(await textOf(page, 'link-note')).startsWith(note));
});

test('the link follows what is typed while it is open', async (t) => {
    const page = await on(t, linkOf('K1^ab'));
    const first = await send(page, { title: 'one', task: '', withCodes: true });
    await typeCodes(page, ['MCU']);
    await page.click(cell(1, 0));
    const other = await page.evaluate(() => document.getElementById('link-text').value);
    const said = await page.evaluate((link) => {
        const { record, at, codes, wanted, title } = links.read(new URL(link).hash);
        return [bytes.drawn(record), at, codes, bytes.drawn(wanted), title];
    }, other);
    assert.notEqual(first, other);
    assert.deepEqual(said, ['K1^ab', '1,1,0', ['MCU'], 'AB', 'one']);
    await page.click('#link-copy');
    await page.until(() => document.getElementById('link-copied').textContent !== '');
    assert.equal(await page.evaluate(() => document.getSelection().toString() || document.activeElement.id), other);
});

const letters = (text) => Array.from(Buffer.from(text));
// Bytes that a text cannot show, or that links and pages take for something else.
const NASTY = [
    [94, 93, 92], [0], [251], [255], [9, 10, 13], letters('é ü € 𝄞'), [0x80, 0xc3, 0xe2, 0x82], [0xed, 0xa0, 0x80], letters('& # % + %41 = ?'),
    letters('  '), letters('"\' `'), letters('<script>alert(1)</script>'), letters('</textarea><img src=x onerror=alert(1)>'), [254, 253, 252, 254, 253, 252],
];

test('records of nasty bytes by links, and a key typed behind them', async (t) => {
    const shown = await on(t);
    const recordOf = () => shown.evaluate(() => page.ready.then(({ record }) => Array.from(record)));
    for (const nasty of NASTY) {
        const data = [...letters('K1'), 254, ...nasty];
        const fragment = await shown.evaluate((given) => links.write({ record: Uint8Array.from(given), at: '1,0,0', codes: [] }), data);
        await shown.go(SINGLE + fragment);
        await shown.until(async (given) => (await page.ready).record.join() === given, data.join());
        await shown.click('#record');
        await shown.press('End', { ctrl: true });
        await shown.press('Z');
        assert.deepEqual(await recordOf(), [...data, 90], fragment);
    }
    assert.deepEqual(shown.complaints, []);
});

test('a link by hand: letters as they are, and as %41', async (t) => {
    const page = await on(t, '#record=K1%5E%41B&at=1%2C0,0&code=%4DCL&budget=9&budget=x&other=1&wanted=ab');
    const now = await seen(page);
    assert.deepEqual([now.record, now.address, now.lines[0].code, now.answer, now.verdict.slice(0, 6)], ['K1^AB', '1,0,0', 'MCL', 'ab', 'Solved']);
});

test('the same exercise again begins anew, and Back finds what stood there before', async (t) => {
    const page = await on(t);
    const begun = (await seen(page)).record;
    await choose(page, 1);
    await typeCodes(page, ['MCU']);
    await retype(page, '#budget', 'x');
    await choose(page, 1);
    await page.until(() => document.querySelector('#codes .code').value === '');
    const field = await page.evaluate(() => [document.getElementById('budget').value, document.getElementById('budget').getAttribute('aria-invalid')]);
    assert.deepEqual(field, ['1,000,000', 'false']);
    await page.evaluate(() => history.back());
    await page.until(() => document.querySelector('#codes .code').value === 'MCU');
    assert.match(await textOf(page, 'task-title'), /^1\. /);
    await page.evaluate(() => history.back());
    await page.until((record) => document.getElementById('record').value === record, begun);
    assert.equal(await textOf(page, 'task'), null);
});

const OTHER = 'Record, address and budget are no longer those of the exercise.';

test('what is solved is solved on the record and at the address of the exercise', async (t) => {
    const page = await on(t);
    await choose(page, 1);
    await retype(page, '#record', 'STK1^4711]0823]1900');
    const now = await seen(page);
    assert.deepEqual([now.answer, now.verdict], ['4711]0823]1900', OTHER]);
    assert.equal(await textOf(page, 'solved-count'), '');
    await choose(page, 1);
    await page.until(() => document.getElementById('record').value.startsWith('STK1^AX'));
    await page.click(cell(1, 0));
    await typeCodes(page, ['T3,4']);
    assert.equal((await seen(page)).verdict, OTHER);
    await page.click('#restore');
    assert.match((await seen(page)).verdict, /^Solved/, 'record and address can be brought back, and the codes stay');
});

test('a larger budget than that of the exercise does not solve it, a smaller one may', async (t) => {
    const page = await on(t, linkOf('K1^ab', '1,0,0', ['MCU'], { title: 'Cheap', wanted: 'AB', budget: 4 }));
    assert.equal((await seen(page)).verdict, 'Not yet the answer that is wanted.');
    await retype(page, '#budget', '5');
    assert.deepEqual([(await seen(page)).answer, (await seen(page)).verdict], ['AB', OTHER]);
    const other = await on(t, linkOf('K1^ab', '1,0,0', ['MCU'], { title: 'Cheap', wanted: 'AB', budget: 6 }));
    await retype(other, '#budget', '5');
    assert.match((await seen(other)).verdict, /^Solved/);
});

test('an answer of nothing can be wanted, and a task has lines', async (t) => {
    const page = await on(t, linkOf('K1^ab', '1,0,0', [], { title: 'Nothing', task: 'one\ntwo', wanted: '' }));
    assert.deepEqual(await taskOf(page), ['Nothing', 'one\ntwo', 'Wanted: nothing: the empty text']);
    assert.equal(await page.evaluate(() => document.getElementById('task-text').innerText), 'one\ntwo');
    await typeCodes(page, ['MCN']);
    assert.match((await seen(page)).verdict, /^Solved/);
});
