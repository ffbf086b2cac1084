// What stays: codes behind the browser's Back, the place of the keys and a half-typed cell in a grid that scrolls, and an exercise that is not another.
import assert from 'node:assert/strict';
import { test } from 'node:test';
import { inEachBrowser } from './browsers.mjs';
import { cell, inChromium, linkOf, opened, retype, seen, typeCodes } from './learner.mjs';

const open = inChromium();
const titleIs = (title) => document.getElementById('task-title').textContent === title;
const SHELF = 'STK1^AX471102]BR082315]CM190044';

test('codes that were typed stand there again when the browser goes back', async (t) => {
    const page = await open(t);
    await page.click('#exercise-list li:nth-child(1) a');
    await page.until(titleIs, '1. Shelf numbers');
    await typeCodes(page, ['T4', 'MCU']);
    await page.click('#task-next a');
    await page.until(titleIs, '2. Labels in capitals');
    await page.evaluate(() => window.history.back());
    await page.until(titleIs, '1. Shelf numbers');
    const { lines, record } = await seen(page);
    assert.deepEqual([lines.map(({ code }) => code), record], [['T4', 'MCU'], SHELF]);
});

test('an exercise is not solved by an answer in its record, behind Back neither', async (t) => {
    const page = await open(t, linkOf('K1^5', '1,0,0', [''], { title: 'Mine', wanted: '0.05' }));
    await retype(page, '#record', 'K1^0.05');
    assert.match((await seen(page)).verdict, /no longer/);
    await page.click('#exercises summary');
    await page.click('#exercise-list li:nth-child(1) a');
    await page.until(titleIs, '1. Shelf numbers');
    await page.evaluate(() => window.history.back());
    await page.until(titleIs, 'Mine');
    const { verdict, record } = await seen(page);
    assert.deepEqual([verdict, record], ['Not yet the answer that is wanted.', 'K1^5']);
});

test('the link to the codes goes there, and leaves the exercise as it is', async (t) => {
    const page = await open(t, linkOf('K1^5', '1,0,0', ['MR2'], { title: 'Mine' }));
    await page.press('Tab');
    await page.press('Enter');
    const where = await page.evaluate(() => [document.activeElement.id, window.location.hash.startsWith('#record=')]);
    assert.deepEqual(where, ['codes-title', true]);
});

test('an exercise that a teacher made of another one is its own', async (t) => {
    const page = await open(t, linkOf(SHELF, '1,0,0', ['T2'], { title: 'Shelf numbers', task: 'The group.', wanted: 'AX]BR]CM' }));
    const shown = await page.evaluate(() => ['task-title', 'verdict', 'solved-count'].map((id) => document.getElementById(id).textContent)
        .concat([document.getElementById('solution').hidden]));
    assert.deepEqual(shown, ['Shelf numbers', 'Solved: this is the answer that is wanted, in 33 steps.', '', true]);
});

test('record, address and budget of the exercise come back by a button, and the codes stay', async (t) => {
    const page = await open(t, linkOf('K1^5]6', '1,0,0', [''], { title: 'Mine', wanted: '0.05]0.06', budget: '500' }));
    await typeCodes(page, ['MR2']);
    await page.click(cell(1, 1));
    await retype(page, '#budget', '1000');
    assert.equal((await seen(page)).verdict, 'Record, address and budget are no longer those of the exercise.');
    await page.click('#restore');
    const { verdict, address, lines } = await seen(page);
    assert.deepEqual([verdict, address, lines.map(({ code }) => code)], ['Solved: this is the answer that is wanted, in 12 steps.', '1,0,0', ['MR2']]);
    await retype(page, '#address', '01,0,00');
    assert.match((await seen(page)).verdict, /^Solved/);
});

test('the line with the bad code is marked, also where a link puts a mark into a line', async (t) => {
    const page = await open(t, '#record=K1%5Eabc&code=T2%FDbad&code=T1');
    assert.deepEqual((await seen(page)).lines.map(({ bad }) => bad), [true, false]);
});

test('more attributes than are drawn are turned to by buttons', async (t) => {
    const page = await open(t, linkOf('K1' + Array.from({ length: 60 }, (_, i) => '^' + (i + 1)).join('')));
    const drawn = () => page.evaluate(() => [document.getElementById('grid-range').textContent]
        .concat(Array.from(document.querySelectorAll('#grid-head [data-a]'), (node) => node.textContent).slice(0, 2)));
    assert.deepEqual(await drawn(), ['attributes 1 to 24 of 60', 'id', '1']);
    await page.click('#grid-later');
    assert.deepEqual(await drawn(), ['attributes 25 to 48 of 60', 'id', '25']);
    await page.click('#grid-later');
    assert.deepEqual(await drawn(), ['attributes 49 to 60 of 60', 'id', '49']);
    await page.click('#grid-earlier');
    assert.deepEqual(await drawn(), ['attributes 25 to 48 of 60', 'id', '25']);
});

const LONG = 'K1^' + Array.from({ length: 500 }, (_, i) => 1000 + i).join(']');
const scrollGrid = (top) => {
    document.getElementById('grid').scrollTop = top;
    return new Promise((resolve) => requestAnimationFrame(() => requestAnimationFrame(() => resolve(true))));
};

inEachBrowser((browser, name) => {
    test(`a cell that is scrolled away keeps the keys and what is typed in it, in ${name}`, async () => {
        const page = await opened(browser(), linkOf(LONG));
        await page.click(cell(1, 2));
        await page.evaluate(scrollGrid, 9000);
        assert.equal(await page.evaluate(() => document.activeElement.dataset.row), '2');
        await page.evaluate(scrollGrid, 0);
        await page.press('F2');
        await page.type('77');
        await page.evaluate(scrollGrid, 9000);
        assert.equal(await page.evaluate(() => document.activeElement.value), '100277');
        await page.press('Enter');
        assert.match((await seen(page)).record, /^K1\^1000\]1001\]100277\]1003\]/);
    });

    test(`a cell that is left for another by the mouse is taken, and the other one picked, in ${name}`, async () => {
        const page = await opened(browser());
        await page.click(cell(3, 0));
        await page.type('XYZ');
        await page.click(cell(1, 0));
        const { record, address } = await seen(page);
        assert.deepEqual([record, address], ['INV7^7500]1250\\300^4]2\\10^XYZ^10000', '1,1,0']);
    });

    test(`no key of a date that is typed is lost, in ${name}`, async () => {
        const page = await opened(browser(), linkOf('K1^0', '1,0,0', ['D']));
        await page.click('[aria-label="Date typed for code 1"]');
        await page.type('18 MAY 1995');
        assert.equal(await page.evaluate(() => document.querySelector('.date output').textContent), 'is day 10000');
    });
});

test('the name of a code or an elm finds its sections alone, and nothing found is said', async (t) => {
    const page = await open(t);
    await page.click('#open-reference');
    const found = async (words) => {
        await retype(page, '#reference-words', words);
        return page.evaluate(() => Array.from(document.querySelectorAll('#reference-text h5')).filter((head) => head.offsetParent !== null)
            .map((head) => head.textContent.split(':')[0]).concat([document.getElementById('reference-found').textContent]));
    };
    assert.deepEqual(await found('t'), ['T', '']);
    assert.deepEqual(await found('P'), ['P', 'P', '']);
    assert.deepEqual(await found('3RR'), ['nRR', '']);
    assert.deepEqual(await found('zzz'), ['Nothing holds these words.']);
    await page.click('#reference-codes a:nth-child(2)');
    assert.equal(await page.evaluate(() => document.activeElement.textContent), 'G: fields of a text');
    await page.press('Escape');
    assert.equal(await page.evaluate(() => document.activeElement.id), 'open-reference');
});

test('a code that is not in the grammar is told its form, what was meant, or that it is several', async (t) => {
    const page = await open(t, linkOf('K1^5'));
    const told = async (code) => {
        await retype(page, '[aria-label="Code 1"]', code);
        return (await seen(page)).lines[0].refusal[1];
    };
    assert.equal(await told('T3;4'), 'Form: Tn or Tm,n. m and n are 1 to 4 digits, m is at least 1. More in the reference');
    assert.equal(await told('mr2 $'), 'Did you mean MR2$?');
    assert.equal(await told("F1;'a b';:"), "Did you mean F;1;'a b';:?");
    assert.equal(await told("f1;'a b'"), "Did you mean F;1;'a b'? It is then refused with 18.");
    assert.equal(await told('f;1;+'), 'Did you mean F;1;+? It is then refused with 7.');
    assert.equal(await told('MCA;MCU'), 'Several codes stand on several lines: MCAMCU');
    assert.equal(await told('  '), 'The line holds blanks alone.');
});
