// The bar of steps, the way of each element, and what is left standing when something goes wrong.
import assert from 'node:assert/strict';
import { test } from 'node:test';
import { fillIn, inChromium, linkOf, read, retype, seen } from './learner.mjs';

const open = inChromium();

// Where the bar ends and its strokes stand, in hundredths, and the names of these.
const meter = (page) => page.evaluate(() => {
    const shares = (selector, side) => Array.from(document.querySelectorAll(selector), (node) => Math.round(parseFloat(node.style[side]) * 100) / 100);
    const [done] = shares('#meter .done', 'width');
    const names = Array.from(document.querySelectorAll('#meter .tick'), (node) => node.textContent);
    return { done, ticks: shares('#meter .tick', 'left'), names, powers: shares('#meter .power', 'left').length };
});
const share = (steps, most) => Math.round(10000 * Math.log10(steps + 1) / Math.log10(most + 1)) / 100;

test('the bar ends at the steps, with strokes at the ceiling, the budget and each power of ten below', async (t) => {
    const page = await open(t);
    const ticks = [share(30990, 1000000), 100];
    assert.deepEqual(await meter(page), { done: share(345, 1000000), ticks, names: ['ceiling 30,990', 'budget 1,000,000'], powers: 6 });
    await retype(page, '#budget', '300');
    const { steps } = await seen(page);
    assert.equal(steps, '278 steps. The ceiling, known before anything runs, is 30,990; the budget is 300.');
    assert.deepEqual(await meter(page), { done: share(278, 30990), ticks: [100, share(300, 30990)], names: ['ceiling 30,990', 'budget 300'], powers: 4 });
});

const cells = (page) => page.evaluate(() => Array.from(document.querySelectorAll('#elements-table .rows-body [role=row]'), (row) =>
    Array.from(row.children, (node) => node.textContent)));

test('element by element: up to the one that is refused, and nothing behind it', async (t) => {
    const page = await open(t, linkOf('K1^10]20]30^5]0]2', '1,0,0', ['F;1;2;/', 'D']));
    assert.deepEqual(await cells(page), [['1', '10', '2', '02 JAN 1968'], ['2', '20', 'refusal 11', ''], ['3', '30', '', '']]);
    const bad = await page.evaluate(() => Array.from(document.querySelectorAll('#grid .cell.bad'), (node) => node.getAttribute('aria-label')));
    assert.deepEqual(bad, ['attribute 1, value 2: 20']);
});

test('element by element: each on what the ones before have left of the budget', async (t) => {
    const page = await open(t, linkOf('K1^10]20^3', '1,0,0', ['F;1;2R;*'], { budget: '61' }));
    assert.deepEqual(await cells(page), [['1', '10', '30'], ['2', '20', 'refusal 15']]);
    await retype(page, '#budget', '62');
    assert.deepEqual(await cells(page), [['1', '10', '30'], ['2', '20', '60']]);
});

test('a code that is refused only as the last one says so, and the whole answers', async (t) => {
    const page = await open(t, linkOf('K1^' + Array(40).fill('x'.repeat(500)).join(']'), '1,0,0', ['MX', 'T1']));
    const { answer, refusal } = await seen(page);
    assert.deepEqual([answer, refusal], [Array(40).fill('7').join(']'), null]);
    assert.equal(await page.evaluate(() => document.getElementById('after-1').textContent), 'Refusal 16, were it the last code.');
});

test('a text that is cut is not cut within a letter, and bytes that are no letters are shown', async (t) => {
    const page = await open(t);
    const framed = await page.evaluate(() => [['é'.repeat(20), 25], ['€'.repeat(20), 25], ['€'.repeat(20), 26]].map(([text, most]) =>
        drawing.data(bytes.of(text), most).filter((node) => node.className === 'byte').length));
    assert.deepEqual(framed, [0, 0, 0]);
    const shown = await page.evaluate(() => drawing.data(new Uint8Array(100).fill(0x80), 50).filter((node) => node.className === 'byte').length);
    assert.equal(shown, 47);
});

test('after a trap the next call has another instance, and so has the one after a second trap', async (t) => {
    const page = await open(t);
    const answers = await page.evaluate(async (source) => {
        // the first two instances trap when they convert
        const real = WebAssembly.instantiate;
        let made = 0;
        WebAssembly.instantiate = async (...given) => {
            const { exports } = await real(...given);
            made += 1;
            return { exports: made > 2 ? exports : { ...exports, convert: () => { throw new WebAssembly.RuntimeError('made by hand'); } } };
        };
        const calls = new Function(source + '; return sundewfrill;')();
        await calls.load(Uint8Array.from(atob(MODULE), (letter) => letter.charCodeAt(0)));
        const said = [];
        for (let turn = 0; turn < 3; turn++) {
            try {
                said.push(bytes.drawn(calls.convert(bytes.typed('K1^10]20^3'), bytes.of('F;1;2R;*'), { a: 1, v: 0, s: 0 }, 62).answer));
            } catch (trap) {
                said.push(trap.message);
            }
            await new Promise((resolve) => requestAnimationFrame(resolve));
        }
        WebAssembly.instantiate = real;
        return said;
    }, read('page/calls.js'));
    assert.deepEqual(answers, ['made by hand', 'made by hand', '30]60']);
});

test('when something goes wrong no old answer is left standing', async (t) => {
    const page = await open(t);
    await page.evaluate(() => { runs.run = () => { throw new Error('broken by hand'); }; });
    await page.click('[aria-label="Code 1"]');
    await page.type('x');
    const left = await page.evaluate(() => [document.getElementById('failure').textContent, document.querySelector('main').textContent]);
    assert.deepEqual(left, ['The page cannot go on, and has to be loaded anew: broken by hand', '']);
    assert.equal((await page.complained()).length, 1);
});

test('a refusal for budget tells the budget that is always enough, where the page takes it', async (t) => {
    const told = async (record) => {
        const page = await open(t, linkOf(record, '1,0,0', ['F;1;1;+'], { budget: '30' }));
        return (await seen(page)).lines[0].refusal[2];
    };
    assert.equal(await told('K1^10]20^3'), 'A budget of 12,334, which is the ceiling, is always enough here.');
    // 15,001 x (2 x (1,025 + 15,003) + 4,097)
    assert.equal(await told('K1^' + ']'.repeat(15000)), 'The ceiling is 542,331,153, and the page takes no budget over 100,000,000.');
});

test('a budget is no larger than the page can keep up with, by a link neither', async (t) => {
    const page = await open(t, linkOf('K1^1', '1,0,0', ['F;1'], { budget: '999999999' }));
    const budget = () => page.evaluate(() => [document.getElementById('budget').value, document.getElementById('budget-words').textContent]);
    assert.deepEqual(await budget(), ['100,000,000', '']);
    await fillIn(page, '#budget', '100000001');
    const words = 'A budget is a whole number up to 100,000,000; 10,000,000 still stands.';
    assert.deepEqual(await budget(), ['100000001', words.replace('10,000,000', '100,000,000')]);
});
