// README's lesson in the page: each of its runs, by keys alone, with the answers, steps, ceiling and refusals that are printed there.
import assert from 'node:assert/strict';
import { before, test } from 'node:test';
import { inEachBrowser } from './browsers.mjs';
import * as chromium from './chromium.mjs';
import { counted, grouped, INVOICE, linkOf, opened, REFUSALS, retype, seen, typeCodes } from './learner.mjs';
import { lessonOf, transcriptsOf } from './transcripts.mjs';

const LESSON = transcriptsOf('README.md').filter(({ words }) => words.length > 1).map(lessonOf);
const MOST_TABS = 60;

const stands = (page) => page.evaluate(() => {
    const { dataset, id } = document.activeElement;
    return { name: document.activeElement.getAttribute('aria-label') || id, row: dataset.row === undefined ? null : Number(dataset.row) };
});

// Goes on by the Tab key until the keys are at something of that name, or in the grid.
async function tabTo(page, name) {
    for (let tabs = 0; tabs < MOST_TABS; tabs++) {
        const now = await stands(page);
        if (now.name === name || (name === 'grid' && now.row !== null)) return;
        await page.press('Tab');
    }
    assert.fail(`the Tab key does not come to ${name}`);
}

async function overtype(page, text) {
    await page.press('a', { ctrl: true });
    await page.type(text);
}

// Picks a whole attribute by its head, where the arrows lead.
async function pickByKeys(page, at) {
    await tabTo(page, 'grid');
    await page.press('Home');
    for (let { row } = await stands(page); row > -1; row--) await page.press('ArrowUp');
    assert.equal((await stands(page)).row, -1);
    for (let a = 0; a < Number(at.split(',')[0]); a++) await page.press('ArrowRight');
    await page.press('Enter');
}

async function codesByKeys(page, codes) {
    await tabTo(page, 'Code 1');
    const { lines } = await seen(page);
    for (let line = 1; line < lines.length; line++) await page.press('ArrowDown');
    for (let line = lines.length; line > 1; line--) {
        await overtype(page, ' ');
        // the blank, and then the line
        await page.press('Backspace');
        await page.press('Backspace');
    }
    await overtype(page, codes[0]);
    for (const code of codes.slice(1)) await page.type('\n' + code);
}

// What is to be seen of a run of the lesson.
function isAsPrinted(now, { steps, answer, formula, ceiling, refusal }, code) {
    if (refusal !== undefined) {
        const { when, advice } = REFUSALS.get(refusal);
        assert.deepEqual([now.lines[0].refusal[0], now.lines[0].refusal.slice(-1)[0], now.said], [when, advice, when], code);
        assert.equal(now.steps, 'Nothing ran: 0 steps.');
    } else {
        assert.equal(now.refusal, null, code);
    }
    if (answer !== undefined) assert.deepEqual([now.answer, now.said], [answer, `Answer ${answer}, ${counted(steps)}`], code);
    if (steps !== undefined) assert.ok(now.steps.startsWith(counted(steps) + '.'), code + ': ' + now.steps);
    if (formula !== undefined) assert.equal(now.lines[0].formula, formula, code);
    if (ceiling !== undefined) assert.ok(now.steps.includes(`The ceiling, known before anything runs, is ${grouped(ceiling)};`), now.steps);
}

test('README has runs of each form', () => {
    for (const part of ['answer', 'formula', 'ceiling', 'refusal']) assert.ok(LESSON.some((run) => run[part] !== undefined), part);
    assert.ok(LESSON.length >= 8);
});

test('all of README\'s lesson by keys alone', async (t) => {
    const browser = await chromium.launch();
    t.after(() => browser.close());
    const page = await opened(browser, linkOf('K1'));
    for (const run of LESSON) {
        const code = run.codes.join(' then ');
        if ((await seen(page)).record !== run.record) {
            await tabTo(page, 'record');
            await overtype(page, run.record);
        }
        await pickByKeys(page, run.at);
        await codesByKeys(page, run.codes);
        const now = await seen(page);
        assert.deepEqual([now.record, now.address, now.lines.map((line) => line.code)], [run.record, run.at, run.codes]);
        isAsPrinted(now, run, code);
    }
    assert.deepEqual(page.complaints, []);
});

inEachBrowser((browser, name) => {
    let page;
    before(async () => page = await opened(browser(), linkOf('K1')));

    test(`the lesson's first run by mouse and keys in ${name}`, async () => {
        const run = LESSON[0];
        await retype(page, '#record', run.record);
        await page.click('#grid [data-a="1"][data-row="-1"]');
        await typeCodes(page, run.codes);
        const now = await seen(page);
        assert.deepEqual([now.record, now.address, now.picked], [INVOICE, '1,0,0', ['7500', '1250', '300']]);
        isAsPrinted(now, run, run.codes.join(' then '));
    });

    test(`an exercise in ${name}`, async () => {
        if (!await page.evaluate(() => document.getElementById('exercises').open)) await page.click('#exercises summary');
        await page.click('#exercise-list li:nth-child(2) a');
        await page.until(() => document.getElementById('verdict').textContent === 'Not yet the answer that is wanted.');
        await typeCodes(page, ['MCA', 'MCU']);
        const now = await seen(page);
        assert.match(now.verdict, /^Solved: this is the answer that is wanted, in [0-9]+ steps\.$/);
        assert.equal(now.answer, 'AXB]QRCD]MZ');
    });

    test(`a refusal in ${name}`, async () => {
        await typeCodes(page, ['MCA', 'F;LPV;+']);
        const { lines, refusal } = await seen(page);
        assert.deepEqual(lines.map(({ bad, invalid }) => [bad, invalid]), [[false, false], [true, true]]);
        assert.deepEqual([lines[1].refusal[0], lines[1].refusal.slice(-1)[0], lines[1].elm], [REFUSALS.get(7).when, REFUSALS.get(7).advice, '+']);
        assert.deepEqual(refusal, [REFUSALS.get(7).when, 'Code 2. What to do stands there.']);
    });
});
