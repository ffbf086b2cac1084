// Picking an address and changing elements in the grid, by mouse and by keys.
import assert from 'node:assert/strict';
import { test } from 'node:test';
import { cell, inChromium, INVOICE, linkOf, REFUSALS, retype, seen } from './learner.mjs';

// So high that nothing scrolls between the two clicks of a double-click.
const HIGH = { width: 1400, height: 1500 };

const open = inChromium();
const on = (t, record = INVOICE) => open(t, linkOf(record), HIGH);
const placeOf = async (page) => {
    const { address, place, picked } = await seen(page);
    return [address, place, picked];
};
// Where the keys are: the attribute and the row of a cell of the grid, or the name of anything else.
const keysAt = (page) => page.evaluate(() => {
    const { dataset, id } = document.activeElement;
    return dataset.row === undefined ? document.activeElement.getAttribute('aria-label') || id : dataset.a + '/' + dataset.row;
});

test('by mouse: a head is the attribute, a cell its value or subvalue, the same again what is wider', async (t) => {
    const page = await on(t);
    const whole = ['1,0,0', 'all of attribute 1: 3 elements', ['7500', '1250', '300']];
    const clicks = [
        [4, -1, ['4,0,0', 'all of attribute 4: 1 element', ['10000']]],
        [1, -1, whole],
        [1, 0, ['1,1,0', 'value 1 of attribute 1: 1 element', ['7500']]],
        [1, 0, whole],
        [1, 2, ['1,2,2', 'subvalue 2 of value 2 of attribute 1: 1 element', ['300']]],
        [1, 2, ['1,2,0', 'value 2 of attribute 1: 2 elements', ['1250', '300']]],
        [1, 2, whole],
        [1, 2, ['1,2,2', 'subvalue 2 of value 2 of attribute 1: 1 element', ['300']]],
        [2, 1, ['2,2,1', 'subvalue 1 of value 2 of attribute 2: 1 element', ['2']]],
        [3, 2, ['3,2,2', 'subvalue 2 of value 2 of attribute 3: missing', ['']]],
        [0, 0, ['0,0,0', 'the id: 1 element', ['INV7']]],
        [1, -1, whole],
    ];
    for (const [a, row, wanted] of clicks) {
        await page.click(cell(a, row));
        assert.deepEqual(await placeOf(page), wanted, `attribute ${a}, row ${row}`);
        assert.equal(await keysAt(page), `${a}/${row}`);
    }
});

test('what is picked is what is told to who does not see it', async (t) => {
    const page = await on(t);
    await page.click(cell(1, 2));
    await page.click(cell(1, 2));
    const picked = (await page.accessibility()).filter(({ states }) => states.selected).map(({ role, name }) => [role, name]);
    assert.deepEqual(picked, [['gridcell', 'attribute 1, value 2, subvalue 1: 1250'], ['gridcell', 'attribute 1, value 2, subvalue 2: 300']]);
});

test('by keys: one stop of the Tab key, arrows, Home, End, Enter and Space', async (t) => {
    const page = await on(t);
    await page.click('#address');
    await page.press('Tab');
    assert.equal(await keysAt(page), '1/0');
    const keys = [
        ['ArrowDown', '1/1'], ['ArrowDown', '1/2'], ['ArrowRight', '2/2'], ['Home', '0/2'], ['End', '4/2'], ['ArrowUp', '4/1'], ['PageUp', '4/-1'],
        ['ArrowUp', '4/-1'], ['ArrowLeft', '3/-1'], ['PageDown', '3/3'], ['ArrowDown', '3/3'], ['ArrowLeft', '2/3'], ['ArrowLeft', '1/3'], ['ArrowUp', '1/2'],
    ];
    for (const [key, wanted] of keys) {
        await page.press(key);
        assert.equal(await keysAt(page), wanted, key);
    }
    assert.equal((await seen(page)).address, '1,0,0', 'going there picks nothing');
    const picks = [['Enter', '1,2,2'], [' ', '1,2,0'], ['Enter', '1,0,0'], [' ', '1,2,2']];
    for (const [key, wanted] of picks) {
        await page.press(key);
        assert.deepEqual([(await seen(page)).address, await keysAt(page)], [wanted, '1/2'], key);
    }
    await page.press('Tab');
    assert.equal(await keysAt(page), 'Code 1');
    await page.press('Tab', { shift: true });
    assert.equal(await keysAt(page), '1/2');
    await page.press('Tab', { shift: true });
    assert.equal(await keysAt(page), 'address');
});

test('an address typed is picked in the grid', async (t) => {
    const page = await on(t);
    const typed = [
        ['2,2,0', 'value 2 of attribute 2: 2 elements', ['2', '10']],
        ['2,2,2', 'subvalue 2 of value 2 of attribute 2: 1 element', ['10']],
        ['0,0,0', 'the id: 1 element', ['INV7']],
        ['9,0,0', 'all of attribute 9: missing', []],
        ['3,0,0', 'all of attribute 3: 1 element', ['SMITH, jane']],
    ];
    for (const [address, place, picked] of typed) {
        await retype(page, '#address', address);
        assert.deepEqual(await placeOf(page), [address, place, picked]);
    }
    await page.press('Tab');
    assert.equal(await keysAt(page), '3/0', 'the keys begin at what is picked');
});

test('a double-click changes a cell', async (t) => {
    const page = await on(t);
    await page.click(cell(3, 0), { count: 2 });
    assert.equal(await keysAt(page), 'New text of attribute 3, value 1');
    await page.press('End');
    for (const _ of 'jane') await page.press('Backspace');
    await page.type('joe\n');
    assert.equal((await seen(page)).record, INVOICE.replace('jane', 'joe'));
    assert.equal(await keysAt(page), '3/1', 'the keys go on to the next row');
});

test('picking moves nothing under the mouse', async (t) => {
    const page = await on(t);
    // lower than the page, and scrolled to its end
    await page.emulate({ width: 1400, height: 700 });
    await page.evaluate(() => scrollTo(0, 1e9));
    const middle = () => page.evaluate((name) => {
        const { left, top, width, height } = document.querySelector(name).getBoundingClientRect();
        return { x: left + width / 2, y: top + height / 2 };
    }, cell(3, 0));
    const { x, y } = await middle();
    await page.clickAt(x, y);
    assert.ok(Math.abs((await middle()).y - y) < 4, `it moved from ${y} to ${(await middle()).y}`);
    assert.equal((await seen(page)).address, '3,1,0');
    await page.clickAt(x, y, { count: 2 });
    assert.equal(await keysAt(page), 'New text of attribute 3, value 1');
});

test('nothing is typed below the id', async (t) => {
    const page = await on(t);
    await page.click(cell(0, 2));
    await page.type('x\n');
    await page.press('F2');
    assert.deepEqual([(await seen(page)).record, await page.evaluate(() => document.querySelector('#grid input'))], [INVOICE, null]);
});

test('what was typed is taken where the mouse goes elsewhere, and the click counts', async (t) => {
    const page = await on(t);
    await page.click(cell(2, 0));
    await page.type('66');
    await page.click('#address');
    assert.equal((await seen(page)).record, INVOICE.replace('^4]', '^66]'));
    await page.click(cell(2, 0));
    await page.type('77');
    await page.click(cell(1, 0));
    assert.deepEqual([(await seen(page)).record, (await seen(page)).address, await keysAt(page)], [INVOICE.replace('^4]', '^77]'), '1,1,0', '1/0']);
});

test('a place that is picked or refused far down is brought into view', async (t) => {
    const page = await on(t, 'K1^' + '1]'.repeat(1500) + 'x');
    await retype(page, '#address', '1,1200,0');
    assert.deepEqual((await seen(page)).picked, ['1']);
    await retype(page, '#address', '1,0,0');
    await page.click('[aria-label="Code 1"]');
    await page.type('MR2');
    const refused = () => Array.from(document.querySelectorAll('#elements-table .refused'), (node) => node.textContent);
    assert.deepEqual(await page.evaluate(refused), ['refusal 12']);
});

test('typing in a cell changes it, and the answer follows', async (t) => {
    const page = await on(t);
    await page.click(cell(2, 0));
    assert.equal((await seen(page)).answer, '4');
    await page.type('55\n');
    const now = await seen(page);
    assert.deepEqual([now.record, now.answer], [INVOICE.replace('^4]', '^55]'), '55']);
    await page.type('7\n');
    assert.equal((await seen(page)).record, INVOICE.replace('^4]2', '^55]7'));
});

test('F2 changes what is there, Escape leaves it', async (t) => {
    const page = await on(t);
    await page.click(cell(1, 0));
    await page.press('F2');
    await page.press('End');
    await page.type('9');
    await page.press('Escape');
    assert.deepEqual([(await seen(page)).record, await keysAt(page)], [INVOICE, '1/0']);
    await page.press('F2');
    await page.press('End');
    await page.type('9\n');
    assert.equal((await seen(page)).record, INVOICE.replace('7500', '75009'));
    await page.type('x');
    await page.press('Escape');
    assert.equal((await seen(page)).record, INVOICE.replace('7500', '75009'));
});

test('a mark typed in a cell is refusal 17, and the old text stays', async (t) => {
    const page = await on(t);
    for (const mark of '^]\\') {
        await page.click(cell(2, 0));
        await page.type(`A${mark}B\n`);
        const now = await seen(page);
        assert.deepEqual([now.record, now.edit], [INVOICE, [REFUSALS.get(17).when, REFUSALS.get(17).advice]], mark);
        assert.equal(await page.evaluate(() => document.activeElement.value), `A${mark}B`, 'what was typed can be mended');
        await page.press('Escape');
    }
    await page.click(cell(2, 0));
    await page.type('8\n');
    const now = await seen(page);
    assert.deepEqual([now.record, now.edit], [INVOICE.replace('^4]', '^8]'), null]);
});

test('a new attribute, a new value and a new subvalue are made', async (t) => {
    const page = await on(t);
    await page.click(cell(5, 0));
    await page.type('new\n');
    assert.equal((await seen(page)).record, INVOICE + '^new');
    await page.click(cell(2, 3));
    await page.type('6\n');
    assert.equal((await seen(page)).record, INVOICE.replace('2\\10', '2\\10]6') + '^new');
    await page.click(cell(3, 2));
    await page.type('third\n');
    assert.equal((await seen(page)).record, 'INV7^7500]1250\\300^4]2\\10]6^SMITH, jane]\\third^10000^new');
    await page.click(cell(5, 0));
    await page.press('Delete');
    await page.press('Enter');
    assert.equal((await seen(page)).record, 'INV7^7500]1250\\300^4]2\\10]6^SMITH, jane]\\third^10000^');
});

test('the id is changed where it stands', async (t) => {
    const page = await on(t);
    await page.click(cell(0, 0));
    await page.type('INV8\n');
    const now = await seen(page);
    assert.deepEqual([now.record, now.address, now.answer], [INVOICE.replace('INV7', 'INV8'), '0,0,0', 'INV8']);
});

test('a record of nothing, and one of many attributes', async (t) => {
    const page = await on(t, '');
    await page.click(cell(1, 0));
    await page.type('first\n');
    assert.equal((await seen(page)).record, '^first');
    await retype(page, '#record', 'K1' + '^x'.repeat(40));
    await retype(page, '#address', '40,0,0');
    await page.press('Tab');
    await page.press('End');
    await page.press('PageUp');
    assert.deepEqual([await keysAt(page), (await seen(page)).picked], ['40/-1', ['x']]);
    await page.press('ArrowDown');
    await page.press('ArrowRight');
    await page.type('y\n');
    assert.equal((await seen(page)).record, 'K1' + '^x'.repeat(40) + '^y');
});
