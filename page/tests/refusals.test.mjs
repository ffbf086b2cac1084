// Every refusal as a learner causes it, in the words of docs/REFUSALS.md, at the line and the element that caused it.
import assert from 'node:assert/strict';
import { test } from 'node:test';
import { cell, fillIn, inChromium, linkOf, REFUSALS, retype, seen, typeCodes } from './learner.mjs';

const on = inChromium();
const invalid = (page) => page.evaluate(() => Array.from(document.querySelectorAll('[aria-invalid=true]'), (node) => node.ariaLabel || node.id));

// A refusal that no line caused: all of it stands where the answer would.
async function isOfAll(page, number, known, fields = []) {
    const { when, advice } = REFUSALS.get(number);
    const now = await seen(page);
    assert.deepEqual(now.refusal, [when, ...(known === null ? [] : [known]), advice]);
    assert.deepEqual([now.said, now.answer], [when, null]);
    assert.deepEqual(now.lines.filter(({ bad, refusal }) => bad || refusal), [], 'no line is marked');
    assert.deepEqual(await invalid(page), fields);
}

// A refusal of one line: it stands there, and that line is marked and no other.
async function isOfLine(page, number, line, { known = [], elm = null, at = null } = {}) {
    const { when, advice } = REFUSALS.get(number);
    const now = await seen(page);
    assert.deepEqual(now.lines.map(({ bad, invalid: isInvalid }) => [bad, isInvalid]), now.lines.map((_, i) => [i === line - 1, i === line - 1]));
    assert.deepEqual(now.lines.map(({ refusal }) => refusal !== null), now.lines.map((_, i) => i === line - 1));
    const { refusal: told, elm: marked } = now.lines[line - 1];
    assert.deepEqual([told[0], told[told.length - 1], marked], [when, advice, elm]);
    for (const words of [known].flat()) assert.ok(told.includes(words), `${words} is not in ${told.join('; ')}`);
    assert.deepEqual(now.refusal, [when, `Code ${line}${at ? `, on the element at ${at}` : ''}. What to do stands there.`]);
    assert.deepEqual([now.said, now.answer], [when, null]);
    assert.deepEqual(await invalid(page), [`Code ${line}`]);
    const cells = await page.evaluate(() => Array.from(document.querySelectorAll('#grid .cell.bad'), (node) => node.getAttribute('aria-label').split(':')[0]));
    if (!at) assert.deepEqual(cells, []);
    return cells;
}

const elementAt = (at, given, length) => `It is the element at ${at}. This code was given ${given}, ${length} byte${length === 1 ? '' : 's'}.`;

test('docs/REFUSALS.md has the numbers 1 to 18', () => {
    assert.deepEqual(Array.from(REFUSALS.keys()), Array.from({ length: 18 }, (_, i) => i + 1));
});

test('what comes to an answer, or to 9 to 16, has run; no other number has, whatever it will mean', async (t) => {
    const page = await on(t);
    const ran = await page.evaluate(() => Array.from({ length: 100 }, (_, refusal) => refusal).filter(runs.ran));
    assert.deepEqual(ran, [0, 9, 10, 11, 12, 13, 14, 15, 16]);
});

test('1: a record that is too long', async (t) => {
    const page = await on(t, linkOf('K1^A'));
    await fillIn(page, '#record', 'K1^' + 'x]'.repeat(16382) + 'y');
    assert.equal((await seen(page)).refusal, null, '32,768 bytes are not too long');
    await page.press('z');
    await isOfAll(page, 1, 'The record has 32,769 bytes.', ['record']);
});

test('2: a byte that no record has', async (t) => {
    const page = await on(t, '#bytes=K1%FE%FB');
    await isOfAll(page, 2, 'The first such byte is byte 4 of the record.', ['record']);
    const other = await on(t, '#bytes=K1%FEAB%FF');
    await isOfAll(other, 2, 'The first such byte is byte 6 of the record.', ['record']);
});

test('3: an id that is too long, or none', async (t) => {
    const page = await on(t, linkOf('K1^A'));
    await retype(page, '#record', '10]20');
    await isOfAll(page, 3, 'The id has 5 bytes.', ['record']);
    await fillIn(page, '#record', 'x'.repeat(49));
    await isOfAll(page, 3, 'The id has 49 bytes.', ['record']);
});

test('4: an address that is none', async (t) => {
    const page = await on(t, linkOf('K1^A'));
    const typed = [
        ['1;0;0', 'An address is three numbers of 1 to 5 digits parted by commas, without blanks.'],
        ['1, 0, 0', 'An address is three numbers of 1 to 5 digits parted by commas, without blanks.'],
        ['1,0', 'An address is three numbers of 1 to 5 digits parted by commas, without blanks.'],
        ['0,1,0', 'The id, which is attribute 0, has no values: its address is 0,0,0.'],
        ['1000,0,0', 'Attribute 1,000 is over 999.'],
        ['1,0,2', 'Subvalue 2 stands in no value: perhaps 1,1,2?'],
        ['1,32769,0', 'The value or the subvalue is over 32,768.'],
    ];
    for (const [address, known] of typed) {
        await retype(page, '#address', address);
        await isOfAll(page, 4, known, ['address']);
        assert.deepEqual([(await seen(page)).place, (await seen(page)).picked], ['', []]);
    }
});

test('5: codes that are too long', async (t) => {
    const page = await on(t, linkOf('K1^A', '1,0,0', ['MCU']));
    await fillIn(page, '[aria-label="Code 1"]', `F;'${'x'.repeat(508)}'`);
    assert.equal((await seen(page)).answer, 'x'.repeat(508));
    await page.press('Enter');
    await page.press('L');
    await isOfAll(page, 5, 'The codes have 514 bytes together.');
});

test('5: the F text of an A code that is too long', async (t) => {
    const page = await on(t, linkOf('K1^2', '1,0,0', ['A1']));
    await fillIn(page, '[aria-label="Code 1"]', 'A1' + '+1'.repeat(128));
    await isOfLine(page, 5, 1);
    await page.press('Backspace');
    await page.press('Backspace');
    assert.equal((await seen(page)).answer, '256');
});

test('6: a code that is none, marked at its elm', async (t) => {
    const page = await on(t, linkOf('K1^Ab', '1,0,0', ['MCU', 'mct']));
    await isOfLine(page, 6, 2, { known: 'Did you mean MCT?' });
    const bad = [['F;1;x;+', 'x'], ['F;1;', '␣'], ['F;1;\'a', '\'a']];
    for (const [code, elm] of bad) {
        await retype(page, '[aria-label="Code 2"]', code);
        const what = elm === '␣' ? 'An elm is missing here: ' : 'It goes wrong here: ';
        await isOfLine(page, 6, 2, { known: what + code + (elm === '␣' ? elm : ''), elm });
    }
    await retype(page, '[aria-label="Code 2"]', 'F; 1');
    await isOfLine(page, 6, 2, { known: ['It goes wrong here: F; 1', 'Did you mean F;1?'], elm: ' 1' });
    await typeCodes(page, ['A1+', 'T1']);
    await isOfLine(page, 6, 1);
});

test('7: the stack of F, marked at its elm', async (t) => {
    const page = await on(t, linkOf('K1^1^2', '1,0,0', ['L', 'F;1;+', 'MCU']));
    await isOfLine(page, 7, 2, { known: 'It goes wrong here: F;1;+', elm: '+' });
    await retype(page, '[aria-label="Code 2"]', 'F;1;2;+;*;1');
    await isOfLine(page, 7, 2, { known: 'It goes wrong here: F;1;2;+;*;1', elm: '*' });
    await fillIn(page, '[aria-label="Code 2"]', 'F' + ';1'.repeat(17));
    await isOfLine(page, 7, 2, { known: 'It goes wrong here: F' + ';1'.repeat(17), elm: '1' });
});

test('8: cannot be caused, and stands in the list of refusals', async (t) => {
    const page = await on(t);
    await page.click('#open-reference');
    const row = await page.evaluate(() => Array.from(document.querySelectorAll('#refusal-8 > *'), (part) => part.textContent));
    assert.deepEqual([`Refusal ${row[0]}: ${row[1]}`, row[2]], [REFUSALS.get(8).when, REFUSALS.get(8).advice]);
    const rows = () => Array.from(document.querySelectorAll('[id^=refusal-]'), (node) => Array.from(node.children, (part) => part.textContent));
    const all = await page.evaluate(rows);
    assert.deepEqual(all.map(([number, when, advice]) => ({ when: `Refusal ${number}: ${when}`, advice })), Array.from(REFUSALS.values()));
});

test('9: an element that is too long, for no line or for what a line makes of it', async (t) => {
    const page = await on(t, linkOf('K1^ab]' + 'x'.repeat(1025)));
    await isOfAll(page, 9, 'It is the element at 1,2,1, of 1,025 bytes.');
    await typeCodes(page, ['MCU']);
    await isOfAll(page, 9, 'It is the element at 1,2,1, of 1,025 bytes.');
    await fillIn(page, '#record', 'K1^ab]c\\' + 'x'.repeat(600));
    await typeCodes(page, ['MCU', 'F;LPV;LPV;:']);
    const given = 'X'.repeat(240) + ' … 600 bytes in all';
    await isOfLine(page, 9, 2, { at: '1,2,2', known: elementAt('1,2,2', given, 600) });
});

// A record, the lines, the bad one, and of the element its address, what the line was given, and the name of its cell.
const IN_RUN = [
    [10, 'K1^5]999999999999999', ['MCN', 'F;LPV;\'1\';+'], 2, '1,2,1', '999999999999999', 'attribute 1, value 2'],
    [10, 'K1^99999999', ['D'], 1, '1,1,1', '99999999', 'attribute 1, value 1'],
    [11, 'K1^8]6\\4^2]3\\0', ['L', 'F;1;2;/'], 2, '1,2,2', '1', 'attribute 1, value 2, subvalue 2'],
    [12, 'K1^12]ab', ['MCU', 'MR2'], 2, '1,2,1', 'AB', 'attribute 1, value 2'],
    [12, 'K1^12]1.5', ['D'], 1, '1,2,1', '1.5', 'attribute 1, value 2'],
    [12, 'K1^41]4G', ['MY', 'MCU'], 1, '1,2,1', '4G', 'attribute 1, value 2'],
    [13, 'K1^41]4243\\FE', ['MCU', 'MY'], 2, '1,2,2', 'FE', 'attribute 1, value 2, subvalue 2'],
    [14, 'K1^12]123456', ['MR2(#6)', 'MCU'], 1, '1,2,1', '123456', 'attribute 1, value 2'],
];

for (const [number, record, codes, line, at, given, name] of IN_RUN) {
    test(`${number}: ${codes.join(' then ')} on ${record}`, async (t) => {
        const page = await on(t, linkOf(record));
        await typeCodes(page, codes);
        const marked = await isOfLine(page, number, line, { at, known: elementAt(at, given, given.length) });
        assert.deepEqual(marked, [name]);
    });
}

test('12: a typed date that does not fit', async (t) => {
    const page = await on(t, linkOf('K1^10000', '1,0,0', ['D2/']));
    await retype(page, '[aria-label="Date typed for code 1"]', '18 MAY 1995');
    const told = await page.evaluate(() => Array.from(document.querySelectorAll('.date .refusal p'), (node) => node.textContent));
    assert.deepEqual(told, [REFUSALS.get(12).when, REFUSALS.get(12).advice]);
    assert.equal((await seen(page)).answer, '05/18/95', 'the run itself is not refused');
});

// MCU costs 5 and L 4 on each element: the bad line, its element, and what it was given.
const BUDGETS = [[17, 2, '1,2,1', 'CD'], [14, 2, '1,2,1', 'CD'], [13, 1, '1,2,1', 'cd'], [9, 1, '1,2,1', 'cd'], [8, 2, '1,1,1', 'AB'], [4, 1, '1,1,1', 'ab']];

test('15: a budget that is too small', async (t) => {
    const page = await on(t, linkOf('K1^ab]cd', '1,0,0', ['MCU', 'L'], { budget: 18 }));
    assert.equal((await seen(page)).answer, '2]2');
    for (const [budget, line, at, given] of BUDGETS) {
        await retype(page, '#budget', String(budget));
        await isOfLine(page, 15, line, { at, known: elementAt(at, given, 2) });
    }
    await retype(page, '#budget', '0');
    await isOfLine(page, 15, 1, { at: '1,1,1', known: elementAt('1,1,1', 'ab', 2) });
});

test('16: an answer that is too long', async (t) => {
    const page = await on(t, linkOf('K1^' + Array(5000).fill('abcd').join(']')));
    await typeCodes(page, ['MX']);
    const { when, advice } = REFUSALS.get(16);
    const now = await seen(page);
    assert.deepEqual([now.refusal[0], now.refusal.slice(-1)[0], now.said], [when, advice, when]);
    assert.deepEqual(now.lines.map(({ bad }) => bad), [false]);
    assert.match(now.steps, /^65,000 steps\./);
});

test('17, 9, 3 and 1 by the grid, and the record stays', async (t) => {
    const page = await on(t, linkOf('K1^A'), { width: 1400, height: 1500 });
    const refused = async (number, record) => {
        const now = await seen(page);
        assert.deepEqual([now.edit, now.record], [[REFUSALS.get(number).when, REFUSALS.get(number).advice], record]);
        await page.press('Escape');
    };
    await page.click(cell(1, 0));
    await page.type('a]b\n');
    await refused(17, 'K1^A');
    for (const [number, a, length] of [[9, 1, 1025], [3, 0, 49]]) {
        await page.click(cell(a, 0));
        await page.type('x');
        await fillIn(page, '#grid input', 'x'.repeat(length));
        await page.press('Enter');
        await refused(number, 'K1^A');
    }
    const full = 'K1^' + 'x]'.repeat(16382) + 'y';
    await fillIn(page, '#record', full);
    await page.click(cell(1, 0));
    await page.type('xx\n');
    await refused(1, full);
});

// All that a line of entries left over is told: how many it ends with, where that is known.
async function isLeftOver(page, line, entries) {
    const known = entries === null ? [] : [`${entries} entries are left at the end: ${entries - 1} too many.`];
    await isOfLine(page, 18, line, { known });
    const { lines, steps } = await seen(page);
    assert.deepEqual(lines[line - 1].refusal, [REFUSALS.get(18).when, ...known, REFUSALS.get(18).advice]);
    assert.equal(steps, 'Nothing ran: 0 steps.');
}

const LEFT_OVER = [
    ['F;1;2', 2], ['F;1;P', 2], ['F;1;2;_', 2], ['F;1;2;3;+', 2], ['F;1;2;3;4;5', 5], ['F;1;(MCU);\'a;b\'', 2], ['F' + ';\'x\''.repeat(16), 16],
];

test('18: entries that are left over are counted, the line is marked and no elm', async (t) => {
    const page = await on(t, linkOf('K1^10]20^3'));
    for (const [code, entries] of LEFT_OVER) {
        await fillIn(page, '[aria-label="Code 1"]', code);
        await isLeftOver(page, 1, entries);
    }
    await page.type(';\'x\'');
    await isOfLine(page, 7, 1, { known: 'It goes wrong here: F' + ';\'x\''.repeat(17), elm: '\'x\'' });
    assert.deepEqual(page.complaints, []);
});

test('18: a join behind F;1;2 clears it and gives the answer', async (t) => {
    const page = await on(t, linkOf('K1^10]20^3'));
    await typeCodes(page, ['F;1;2']);
    await isLeftOver(page, 1, 2);
    await page.type(';');
    await isOfLine(page, 6, 1, { known: 'An elm is missing here: F;1;2;␣', elm: '␣' });
    await page.type(':');
    const { answer, refusal, lines: [line], steps } = await seen(page);
    assert.deepEqual([answer, refusal, line.bad, line.invalid, line.value], ['103]20', null, false, false, '103]20']);
    assert.match(steps, /^61 steps\. The ceiling, known before anything runs, is 12,334;/);
});

test('18: of several lines the first bad one is marked, and those before it stand', async (t) => {
    const page = await on(t, linkOf('K1^10]20^3', '1,0,0', ['L', 'A1:2', 'F;LPV;2R', 'F;1;2', 'MCU']));
    await isLeftOver(page, 3, 2);
    const { lines } = await seen(page);
    assert.deepEqual(lines.map(({ value }) => value), ['2]2', '103]20', null, null, null]);
    assert.equal(lines[1].formula, 'F;1;2;:', 'an A code leaves nothing over');
    const rows = await page.evaluate(() => Array.from(document.querySelectorAll('#elements-table .rows-body [role=row]'), (row) =>
        Array.from(row.children, (node) => node.textContent)));
    assert.deepEqual(rows, [['1', '10', '2', '103', '', '', ''], ['2', '20', '2', '20', '', '', '']]);
    await retype(page, '[aria-label="Code 3"]', 'F;LPV');
    await isLeftOver(page, 4, 2);
});

test('18: tried on a code behind 6 and 7, and before any code behind it', async (t) => {
    const page = await on(t, linkOf('K1^10]20^3', '1,0,0', ['F;1;2', 'ZZ']));
    await isLeftOver(page, 1, 2);
    await typeCodes(page, ['ZZ', 'F;1;2']);
    await isOfLine(page, 6, 1);
    await typeCodes(page, ['F;1;2;ZZ']);
    await isOfLine(page, 6, 1, { known: 'It goes wrong here: F;1;2;ZZ', elm: 'ZZ' });
    await typeCodes(page, ['F;1;2;3;[];+']);
    await isOfLine(page, 7, 1, { known: 'It goes wrong here: F;1;2;3;[];+', elm: '+' });
});

test('18: where a join has no room the number is not told', async (t) => {
    const page = await on(t, linkOf('K1^10]20^3'));
    for (const [length, entries] of [[510, 2], [511, null], [512, null]]) {
        await fillIn(page, '[aria-label="Code 1"]', `F;1;'${'x'.repeat(length - 6)}'`);
        await isLeftOver(page, 1, entries);
    }
});
