// All rows of the vectors, in the built page by its own calls.
import assert from 'node:assert/strict';
import { before, test } from 'node:test';
import { inEachBrowser } from './browsers.mjs';
import { SINGLE } from './built.mjs';
import { FILES, ready, ROWS, run } from './rows.mjs';

const sumOf = (numbers) => numbers.reduce((sum, number) => sum + number, 0);
const countOf = (file) => sumOf(Object.values(FILES[file]));

test('the files have 27,661 rows in all', () => {
    assert.equal(sumOf(Object.keys(FILES).map(countOf)), ROWS);
});

inEachBrowser((browser, name) => {
    let page;
    before(async () => page = await ready(browser(), SINGLE));

    for (const file of Object.keys(FILES)) {
        test(`${countOf(file)} rows of ${file} in ${name}`, async () => {
            const { ran, differing, first } = await run(page, file);
            assert.equal(differing, 0, `${differing} rows differ:\n${first.join('\n')}`);
            assert.deepEqual(ran, FILES[file], 'how many rows were run of each call');
        });
    }
});
