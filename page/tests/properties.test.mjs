// What the page's own scripts work out, by many cases, in the page itself: culprits, lines, elements, texts of bytes, links; and every example of the
// reference.
import assert from 'node:assert/strict';
import { readFileSync } from 'node:fs';
import { after, before, test } from 'node:test';
import * as chromium from './chromium.mjs';
import { opened, read } from './learner.mjs';
import { examplesOf } from './transcripts.mjs';

const BROWSER_PART = readFileSync(new URL('cases.browser.js', import.meta.url), 'utf8');
const CASES = 6000;
const EXAMPLES = 254;

let browser;
let page;
before(async () => {
    browser = await chromium.launch();
    page = await opened(browser);
    await page.run(BROWSER_PART);
});
after(() => browser.close());

test(`${CASES} runs: the culprit is the first element whose own turn is refused, and all else is what single calls say`, async (t) => {
    const { ran, refusals, wrong } = await page.evaluate((count) => cases.runsOf(20261117, count), CASES);
    assert.deepEqual(wrong, [], wrong.join('\n'));
    assert.equal(ran, CASES);
    for (const number of [0, 6, 7, 9, 10, 11, 12, 13, 14, 15, 18]) assert.ok(refusals[number] > 5, `refusal ${number} came ${refusals[number]} times`);
    t.diagnostic('how often each refusal came: ' + JSON.stringify(refusals));
});

test('bytes as texts and as links come back as they were, 5,000 times', async () => {
    assert.deepEqual(await page.evaluate(() => cases.bytesAndLinks(7, 5000)), []);
});

test(`the ${EXAMPLES} examples of docs/CODES.md give in the page what is printed there`, async () => {
    const examples = examplesOf('docs/CODES.md');
    assert.equal(examples.length, EXAMPLES);
    // another way to count them than by the heads of their tables: the rows of any table whose last cell is what the console prints
    assert.equal(read('docs/CODES.md').match(/^\|.*\| `[0-9]+ [0-9]+ [^`]*` \|$/gm).length, EXAMPLES);
    const given = await page.evaluate((all) => all.map(({ record, codes }) => {
        const { refusal, steps, answer } = runs.run(bytes.typed(record), '1,0,0', codes, links.BUDGET);
        // a plain ^ ] or \ in an answer looks like a mark
        const marks = { 252: '\\', 253: ']', 254: '^' };
        return `${refusal} ${steps} ${bytes.plain(answer.map((byte) => marks[byte] ? marks[byte].charCodeAt(0) : byte))}`;
    }), examples);
    examples.forEach(({ record, codes, prints }, i) => assert.equal(given[i], prints, `${codes.join(' then ')} on ${record}`));
});

test('each example has a link in the reference that says just that', async () => {
    await page.click('#open-reference');
    const said = await page.evaluate(() => Array.from(document.querySelectorAll('#reference-text td .try'), (link) => {
        const { record, at, codes } = links.read(link.getAttribute('href'));
        return { record: bytes.drawn(record), at, codes };
    }));
    assert.deepEqual(said, examplesOf('docs/CODES.md').map(({ record, codes }) => ({ record, at: '1,0,0', codes })));
});
