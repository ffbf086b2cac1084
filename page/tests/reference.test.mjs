// The reference beside the codes: found by a code, by words, by links; its examples are tried by a click.
import assert from 'node:assert/strict';
import { test } from 'node:test';
import { inChromium, linkOf, read, REFUSALS, retype, seen, typeCodes } from './learner.mjs';
import { examplesOf, transcriptsOf } from './transcripts.mjs';

const on = inChromium();
const isOpen = (page) => page.evaluate(() => !document.getElementById('reference').hidden);

// The heading that stands at the top of the reference as it is scrolled.
const topHeading = (page) => page.evaluate(() => {
    const { top } = document.getElementById('reference-text').getBoundingClientRect();
    const heads = Array.from(document.querySelectorAll('#reference-text h3, #reference-text h4, #reference-text h5'));
    const near = heads.filter((head) => head.checkVisibility() && Math.abs(head.getBoundingClientRect().top - top) < 60);
    return near.length ? near[0].textContent : null;
});

test('the question mark of a line opens it at its code', async (t) => {
    const page = await on(t, linkOf('K1^1'));
    const codes = [
        ['F;1', /^F: /], ['MCT', /MCT/], ['MR2,$', /MR/], ['T2', /^T/], ['G1-1', /^G/], ['D2/', /^D/], ['P(1N)', /^P/], ['L', /^L/], ['MX', /MX/],
        ['A1+2', /^The A code/], ['?', /^The codes/],
    ];
    for (const [code, heading] of codes) {
        await typeCodes(page, [code]);
        await page.click('[aria-label="About code 1 in the reference"]');
        assert.match(String(await topHeading(page)), heading, code);
    }
});

test('the words that are looked for are in what is left', async (t) => {
    const page = await on(t, linkOf('K1^1'));
    await page.click('#open-reference');
    const shown = () => page.evaluate(() => Array.from(document.querySelectorAll('#reference-text .body')).filter((body) => body.checkVisibility())
        .map((body) => body.parentNode.firstChild.textContent + ' ' + body.textContent));
    const all = await shown();
    await page.type('CEILING budget');
    const left = await shown();
    assert.ok(left.length > 0 && left.length < all.length, `${left.length} of ${all.length}`);
    for (const text of left) assert.match(text.toLowerCase(), /ceiling[^]*budget|budget[^]*ceiling/);
    await retype(page, '#reference-words', 'zzzz');
    assert.deepEqual([await shown(), await page.evaluate(() => document.getElementById('reference-found').textContent)], [[], 'Nothing holds these words.']);
    await retype(page, '#reference-words', '');
    assert.deepEqual(await shown(), all);
});

test('it has all of docs/CODES.md and the list of refusals, and nothing of their marks', async (t) => {
    const page = await on(t, linkOf('K1^1'));
    await page.click('#open-reference');
    const { text, prose, heads, tries, rows } = await page.evaluate(() => ({
        text: document.getElementById('reference-text').textContent,
        // what stands in a code span is as it was written
        prose: Array.from(document.querySelectorAll('#reference-text :not(code)'))
            .flatMap((node) => Array.from(node.childNodes, ({ data }) => data || '')).join(' '),
        heads: document.querySelectorAll('#reference-text h3, #reference-text h4, #reference-text h5').length,
        tries: document.querySelectorAll('#reference-text .try').length,
        rows: document.querySelectorAll('#reference-text td .try').length,
    }));
    const source = read('docs/CODES.md');
    assert.equal(heads, source.match(/^#+ /gm).length + 1);
    assert.equal(rows, examplesOf('docs/CODES.md').length);
    const runs = transcriptsOf('docs/CODES.md').filter(({ words }) => /^[0-9]/.test(words[0])).length;
    assert.ok(tries - rows > 0 && tries - rows <= runs, `${tries - rows} of ${runs} transcripts can be tried`);
    assert.doesNotMatch(prose, /\*\*|`|\]\(|docs\//);
    for (const { advice } of REFUSALS.values()) assert.ok(text.includes(advice), advice);
});

test('an example is tried by a click, of a table and of a transcript', async (t) => {
    const page = await on(t);
    await page.click('#open-reference');
    await page.click('#reference-text td .try');
    const [first] = examplesOf('docs/CODES.md');
    await page.until((record) => document.getElementById('record').value === record, first.record);
    const now = await seen(page);
    assert.deepEqual([now.address, now.lines.map(({ code }) => code)], ['1,0,0', first.codes]);
    assert.ok(first.prints.endsWith(' ' + now.answer), now.answer);
    await page.click('#reference-text .tries .try');
    await page.until((record) => document.getElementById('record').value !== record, first.record);
    const [run] = transcriptsOf('docs/CODES.md').filter(({ words }) => /^[0-9]/.test(words[0]));
    const then = await seen(page);
    assert.deepEqual([then.address, then.record, ...then.lines.map(({ code }) => code)], run.words);
    assert.equal(await isOpen(page), true, 'on a wide screen it stays open');
});

test('on a small screen it gives way to the example that is tried', async (t) => {
    const page = await on(t, linkOf('K1^1'), { width: 360, height: 740, mobile: true });
    await page.evaluate(() => document.getElementById('open-reference').scrollIntoView());
    await page.click('#open-reference');
    await page.click('#reference-text td .try');
    await page.until(() => document.getElementById('reference').hidden);
    assert.equal((await seen(page)).record, examplesOf('docs/CODES.md')[0].record);
});

test('links in a refusal and in the text lead to their part', async (t) => {
    const page = await on(t, linkOf('K1^1', '1,0,0', ['mct']));
    await page.click('.after .refusal .advice a');
    assert.equal(await isOpen(page), true);
    assert.equal(await topHeading(page), 'The codes');
    await page.evaluate(() => document.getElementById('reference-text').scrollTo(0, 0));
    await page.click('#reference-text a[href="#ref-list-of-refusals"]');
    assert.equal((await seen(page)).record, 'K1^1', 'nothing else is opened by it');
    const top = (id) => page.evaluate((name) => document.getElementById(name).getBoundingClientRect().top, id);
    const below = await top('refusal-1') - await top('reference-text');
    assert.ok(below > 0 && below < 200, `the list is ${below} below`);
});
