// How the page looks, wide and narrow, light and dark: pictures in target/page/shots, no sideways scrolling, and contrast everywhere.
import assert from 'node:assert/strict';
import { copyFileSync, mkdirSync, readFileSync } from 'node:fs';
import { resolve } from 'node:path';
import { before, test } from 'node:test';
import { SITE } from './built.mjs';
import { cell, inChromium, linkOf, paste, retype, typeCodes } from './learner.mjs';

const BROWSER_PART = readFileSync(new URL('looks.browser.js', import.meta.url), 'utf8');
const SHOTS = resolve(SITE, '../shots');
const SIZES = { wide: { width: 1400, height: 1000 }, narrow: { width: 360, height: 740, mobile: true } };
const NARROW = 360;
const LEAST_TEXTS = 30;

const openReference = async (page, words) => {
    await page.click('#open-reference');
    if (words) await page.type(words);
};

// What stands in the page: a link to begin with, and what a learner does then.
const STATES = {
    start: ['', () => {}],
    exercise: ['', async (page) => {
        if (!await page.evaluate(() => document.getElementById('exercises').open)) await page.click('#exercises summary');
        await page.click('#exercise-list li:nth-child(6) a');
        await page.until(() => document.getElementById('task-title').textContent.startsWith('6. '));
    }],
    solved: [linkOf('STK1^AX471102]BR082315', '1,0,0', ['T3,4'], { title: 'Shelf numbers', task: 'Show `4711`.', wanted: '4711]0823' }), () => {}],
    refusal: [linkOf('INV7^7500]1250\\300^4]2\\10', '1,0,0', ['L', 'F;1;+']), () => {}],
    element: [linkOf('K1^12]ab\\3^\u00e9', '1,0,0', ['MCU', 'MR2', 'A1+2']), () => {}],
    record: ['#bytes=K1%FEa%5Eb%00%80%FB', () => {}],
    reference: ['', (page) => openReference(page)],
    search: ['', (page) => openReference(page, 'budget')],
    link: [linkOf('K1^' + 'a long word '.repeat(80), '1,0,0', ['MCU', 'D']), (page) => page.click('#open-link')],
    edit: [linkOf('K1^10000', '1,0,0', ['D']), async (page) => {
        await page.click(cell(1, 0));
        await page.type('x]y\n');
        await retype(page, '[aria-label="Date typed for code 1"]', 'x');
    }],
    budget: [linkOf('K1^ab', '1,0,0', ['MCU']), (page) => retype(page, '#budget', 'x')],
    words: [linkOf('K1^ab'), async (page) => {
        await typeCodes(page, ['F;1']);
        await paste(page, ';\'' + 'w'.repeat(200) + '\';:');
    }],
};
// Those that pictures are kept of.
const PICTURES = ['start', 'exercise', 'refusal', 'reference'];

const on = inChromium();
before(() => mkdirSync(SHOTS, { recursive: true }));

const found = [];

// The texts of a state in light and in dark.
async function contrastIn(page, size) {
    for (const dark of [false, true]) {
        await page.emulate({ ...SIZES[size], dark });
        const { count, least, bad } = await page.evaluate(() => looks.contrasts());
        assert.deepEqual(bad, [], dark ? 'in dark' : 'in light');
        assert.ok(count > LEAST_TEXTS, `${count} texts`);
        found.push({ count, least });
    }
}

async function pictures(page, name, size) {
    for (const dark of [false, true]) {
        await page.emulate({ ...SIZES[size], dark });
        await page.evaluate(() => scrollTo(0, 0));
        const shade = dark ? 'dark' : 'light';
        const file = resolve(SHOTS, `${name}-${size}-${shade}.png`);
        await page.screenshot(file);
        // README's own picture
        if (name === 'start' && size === 'wide') copyFileSync(file, resolve(SHOTS, `practice-${shade}.png`));
    }
}

for (const size of Object.keys(SIZES)) {
    for (const [name, [fragment, act]] of Object.entries(STATES)) {
        test(`${name}, ${size}: contrast of 4.5:1 at least, and nothing wider than the window`, async (t) => {
            const page = await on(t, fragment, SIZES[size]);
            await act(page);
            await page.run(BROWSER_PART);
            const { width, wider } = await page.evaluate(() => looks.wide());
            assert.deepEqual([width <= SIZES[size].width, wider], [true, []], `it is ${width} wide`);
            if (size === 'wide' || PICTURES.includes(name)) await contrastIn(page, size);
            if (PICTURES.includes(name)) await pictures(page, name, size);
            if (size === 'wide') return;
            // with a scroll bar that takes room, as on a small window of a laptop
            await page.emulate({ width: NARROW, height: 740 });
            assert.ok(await page.evaluate(() => document.documentElement.scrollWidth) <= NARROW);
        });
    }
}

test('every state was looked at in light and in dark', (t) => {
    assert.equal(found.length, 2 * (Object.keys(STATES).length + PICTURES.length));
    const count = found.reduce((sum, one) => sum + one.count, 0);
    t.diagnostic(`REPORT ${count} texts looked at, the least contrast is ${Math.min(...found.map(({ least }) => least)).toFixed(2)}`);
});

test('the colours are not the same in light and in dark', async (t) => {
    const page = await on(t);
    const ground = () => page.evaluate(() => getComputedStyle(document.body).backgroundColor);
    await page.emulate({ dark: false });
    const light = await ground();
    await page.emulate({ dark: true });
    assert.notEqual(await ground(), light);
});

test('on paper there is the exercise and no tools', async (t) => {
    const page = await on(t);
    await page.emulate({ print: true });
    const shown = (id) => page.evaluate((name) => document.getElementById(name).getClientRects().length > 0, id);
    for (const id of ['record', 'answer-value', 'no-clock']) assert.equal(await shown(id), true, id);
    for (const id of ['open-reference', 'add-code']) assert.equal(await shown(id), false, id);
});
