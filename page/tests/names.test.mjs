// What a screen reader is told, and where the Tab key goes.
import assert from 'node:assert/strict';
import { test } from 'node:test';
import { cell, inChromium, INVOICE, linkOf, REFUSALS, retype, seen, typeCodes } from './learner.mjs';

const MOST_TABS = 80;

const on = inChromium();

// Controls that are seen, by the page itself.
const controls = (page) => page.evaluate(() => {
    const all = document.querySelectorAll('button:enabled, input, textarea, a[href], summary, [tabindex="0"]');
    return Array.from(all).filter((node) => node.checkVisibility()).length;
});

// The same by the accessibility tree, with their names; what scrolls without being a control is none.
const named = async (page) => (await page.accessibility()).filter(({ role, states }) => states.focusable && !['RootWebArea', 'generic'].includes(role));

const STATES = {
    start: ['', () => {}],
    exercise: ['', async (page) => {
        await page.click('#exercise-list li:nth-child(8) a');
        await page.until(() => document.getElementById('task-title').textContent.startsWith('8. '));
    }],
    refusal: [linkOf('K1^1', '1,0,0', ['L', 'F;1;+', 'mct']), () => {}],
    reference: ['', (page) => page.click('#open-reference')],
    link: ['', (page) => page.click('#open-link')],
    date: [linkOf('K1^1]2', '1,0,0', ['D', 'D2/']), () => {}],
    edit: [linkOf('K1^1'), async (page) => {
        await page.click(cell(1, 0));
        await page.press('F2');
    }],
};

for (const [name, [fragment, act]] of Object.entries(STATES)) {
    test(`${name}: every control has a name`, async (t) => {
        const page = await on(t, fragment);
        await act(page);
        const all = await named(page);
        assert.deepEqual(all.filter((node) => !node.name.trim()), []);
        const tabbed = all.filter(({ role, states }) => !['gridcell', 'columnheader', 'heading'].includes(role) || states.focused);
        const count = await controls(page);
        // the grid's cells beside the one that has the keys, and what is focused by a link alone, are no stops
        assert.ok(tabbed.length >= count - 1, `${tabbed.length} of ${count} controls have a name`);
    });
}

test('the names of the main controls', async (t) => {
    const page = await on(t, linkOf(INVOICE, '4,0,0', ['F;1;2;*', 'D']));
    const names = (await named(page)).map(({ role, name }) => `${role}: ${name}`);
    const wanted = [
        'link: To the codes', 'button: Reference', 'button: Send as an exercise', 'DisclosureTriangle: Exercises',
        'textbox: As text: ^ before each attribute, ] between values, \\ between subvalues, the item-id first', 'textbox: Address',
        'columnheader: id', 'columnheader: attribute 1', 'columnheader: attribute 5, which is not there yet', 'gridcell: id: INV7',
        'gridcell: attribute 1, value 1: 7500', 'gridcell: attribute 2, value 2, subvalue 2: 10', 'gridcell: attribute 3, value 3: nothing there',
        'textbox: Code 1', 'button: About code 1 in the reference', 'button: Remove code 1', 'textbox: Code 2', 'textbox: Date typed for code 2',
        'button: Add a line', 'textbox: Budget in steps', 'table: What the codes make of each element',
    ];
    assert.deepEqual(wanted.filter((name) => !names.includes(name)), [], names.join('\n'));
    assert.equal(names.filter((name) => /^link: .*(Shelf numbers T|Refused, and refused again F refusals)$/.test(name)).length, 2);
    const roles = (await page.accessibility()).map(({ role, name }) => `${role}: ${name}`);
    for (const name of ['grid: Record as a grid: columns are attributes, rows are values', 'heading: Record', 'heading: Codes', 'heading: Answer']) {
        assert.ok(roles.includes(name), name);
    }
});

test('a field says what came of it', async (t) => {
    const page = await on(t, linkOf(INVOICE, '1,0,0', ['F;1;2;*', 'mr2']));
    const fields = (await named(page)).filter(({ role }) => role === 'textbox');
    const about = (name) => fields.find((field) => field.name === name);
    assert.equal(about('Address').description, 'all of attribute 1: 3 elements');
    assert.match(about('Code 1').description, /30000\]2500\\3000\W+310 steps/, 'the answer and the steps are apart');
    assert.match(about('Code 2').description, /^Refusal 6: /);
    assert.deepEqual([about('Code 1').states.invalid, about('Code 2').states.invalid], ['false', 'true']);
});

test('the live region says the answer and the refusals', async (t) => {
    const page = await on(t, linkOf(INVOICE));
    assert.deepEqual(await page.evaluate(() => document.getElementById('said').getAttribute('role')), 'status');
    const said = async () => (await seen(page)).said;
    assert.equal(await said(), 'Answer 7500]1250\\300, 0 steps');
    await typeCodes(page, ['MCA']);
    assert.equal(await said(), 'Answer ]\\, 14 steps');
    await typeCodes(page, ['F;1;2;*']);
    assert.equal(await said(), 'Answer 30000]2500\\3000, 310 steps');
    await page.press('Backspace');
    assert.equal(await said(), REFUSALS.get(6).when);
    await retype(page, '#address', '1');
    assert.equal(await said(), REFUSALS.get(4).when);
    await retype(page, '#address', '3,0,0');
    await typeCodes(page, ['MCN']);
    assert.equal(await said(), 'Answer empty, 12 steps');
});

const stop = (page) => page.evaluate(() => {
    const { activeElement: node } = document;
    if (node === document.body) return 'the end';
    if (node.closest('#exercise-list')) return 'exercise';
    if (node.dataset.row !== undefined) return 'grid';
    return node.getAttribute('aria-label') || node.id || node.textContent.trim();
});

// All stops of the Tab key from the page's start, until it leaves the page or comes to its first stop again.
async function stopsOf(page, held = {}) {
    const stops = [];
    for (let tabs = 0; tabs < MOST_TABS; tabs++) {
        await page.press('Tab', held);
        const now = await stop(page);
        if (now === 'the end' || (stops.length > 0 && stops[0] === now && now !== 'exercise')) return stops;
        stops.push(now);
    }
    return assert.fail('no end: ' + stops.join(', '));
}

test('the Tab key reaches everything in order, and both ways', async (t) => {
    const page = await on(t, linkOf(INVOICE, '1,0,0', ['F;1;2;*', 'MR2,$']));
    const stops = await stopsOf(page);
    const line = (number) => [`Code ${number}`, `About code ${number} in the reference`, `Remove code ${number}`];
    const wanted = [
        'To the codes', 'open-reference', 'open-link', 'Exercises', ...Array(10).fill('exercise'), 'record', 'address', 'grid',
        ...line(1), ...line(2), 'add-code', 'budget', 'What the codes make of each element',
    ];
    assert.deepEqual(stops, wanted);
    await page.evaluate(() => document.activeElement.blur());
    const other = await on(t, linkOf(INVOICE, '1,0,0', ['F;1;2;*', 'MR2,$']));
    assert.deepEqual((await stopsOf(other, { shift: true })).reverse(), wanted);
});

test('the Tab key goes through the open reference and out of it', async (t) => {
    const page = await on(t, linkOf('K1^1'));
    await page.click('#open-reference');
    assert.equal(await stop(page), 'reference-words');
    await page.press('Escape');
    assert.deepEqual([await stop(page), await page.evaluate(() => document.getElementById('reference').hidden)], ['open-reference', true]);
    await page.press('Enter');
    await page.type('halves');
    await page.press('Tab');
    assert.notEqual(await stop(page), 'reference-words');
    await page.press('Tab', { shift: true });
    assert.equal(await stop(page), 'reference-words');
    await page.press('Tab', { shift: true });
    assert.equal(await stop(page), 'close-reference');
    await page.press(' ');
    assert.equal(await page.evaluate(() => document.getElementById('reference').hidden), true);
});

test('the first link goes to the codes', async (t) => {
    const page = await on(t);
    await page.press('Tab');
    await page.press('Enter');
    await page.press('Tab');
    assert.equal(await stop(page), 'Code 1');
    assert.equal((await seen(page)).record, INVOICE, 'it opens nothing else');
});
