// Lengths that no file of the vectors has, as rows of their form: nothing, more than 65,536 bytes, more memory than the page begins with.
import assert from 'node:assert/strict';
import { before, test } from 'node:test';
import { inEachBrowser } from './browsers.mjs';
import { SINGLE } from './built.mjs';
import { ready, runLines } from './rows.mjs';

const hex = (text) => Buffer.from(text, 'latin1').toString('hex') || '-';
const RECORD = hex('K1\xfe10\xfd20\xfe3');
const FORMULA = hex('F;1;2R;*');
const ANSWER = hex('30\xfd60');
const ALGEBRA = hex('A1*2R');

const row = (...fields) => fields.join('\t');
const convert = (record, code, outputLength, scratchLength, ...result) =>
    row('convert', record, code, 1, 0, 0, 1000000, outputLength, scratchLength, ...result);

// An empty record is an id of no bytes; an empty code leaves the elements as they are.
const NOTHING = [
    row('find', '-', 0, 0, 0, 0, 1, '-'),
    row('replace', '-', 1, 0, 0, hex('x'), 100, 0, 2, hex('\xfex')),
    row('replace', RECORD, 1, 0, 0, '-', 100, 0, 5, hex('K1\xfe\xfe3')),
    row('replace', RECORD, 1, 0, 0, hex('x'), 0, 16, 0, '-'),
    row('check', '-', 0, 0, 0, 0, 0, 0),
    convert('-', FORMULA, 100, 20480, 0, 4, 1, hex('0')),
    convert(RECORD, '-', 100, 20480, 0, 0, 5, hex('10\xfd20')),
    convert(RECORD, FORMULA, 0, 20480, 16, 62, 0, '-'),
    convert(RECORD, FORMULA, 100, 0, 8, 0, 0, '-'),
    row('ceilingof', RECORD, '-', 1, 0, 0, 0),
    row('date', '-', hex('31 DEC 1967'), 6, 0),
    row('date', hex('D'), '-', 12, 0),
    row('acode', '-', 100, 6, 0, '-'),
    row('acode', ALGEBRA, 0, 16, 0, '-'),
];

// Each part so long, and everything else as it should be.
function long(length) {
    const data = hex('x'.repeat(length));
    return [
        row('find', data, 0, 0, 0, 1, 0, '-'),
        row('replace', data, 1, 0, 0, hex('x'), 100, 1, 0, '-'),
        row('replace', RECORD, 1, 0, 0, data, 40000, 9, 0, '-'),
        row('replace', RECORD, 1, 0, 0, hex('x'), length, 0, 6, hex('K1\xfex\xfe3')),
        row('check', data, 5, 0, 0, 0, 0, 0),
        convert(data, FORMULA, 100, 20480, 1, 0, 0, '-'),
        convert(RECORD, data, 100, 20480, 5, 0, 0, '-'),
        convert(RECORD, FORMULA, length, 20480, 0, 62, 5, ANSWER),
        convert(RECORD, FORMULA, 100, length, 0, 62, 5, ANSWER),
        row('ceilingof', data, FORMULA, 1, 0, 0, 0),
        row('ceilingof', RECORD, data, 1, 0, 0, 0),
        row('date', data, hex('31 DEC 1967'), 5, 0),
        row('date', hex('D'), data, 12, 0),
        row('acode', data, 100, 5, 0, '-'),
        row('acode', ALGEBRA, length, 0, 8, FORMULA),
    ];
}

// An A code of 512 bytes, and the deepest calls that there are.
const DEEP = [
    row('acode', hex('A' + '('.repeat(511)), 512, 6, 0, '-'),
    row('acode', hex('A' + '('.repeat(255) + '1' + ')'.repeat(255)), 512, 0, 3, hex('F;1')),
    row('acode', hex('A' + '('.repeat(127) + '1' + '+1)'.repeat(127)), 512, 0, 511, hex('F;1' + ';1;+'.repeat(127))),
];

inEachBrowser((browser, name) => {
    let page;
    before(async () => page = await ready(browser(), SINGLE));

    async function allAsTheySay(rows) {
        const { ran, differing, first } = await runLines(page, 'limits', null, rows);
        assert.equal(differing, 0, `${differing} rows differ:\n${first.join('\n')}`);
        assert.equal(Object.values(ran).reduce((sum, count) => sum + count), rows.length);
    }

    test(`records, codes, elements, outputs and scratch of no bytes in ${name}`, () => allAsTheySay(NOTHING));
    test(`the same of 65,537 bytes in ${name}`, () => allAsTheySay(long(65537)));
    test(`the same of 200,000 bytes in ${name}`, () => allAsTheySay(long(200000)));
    test(`the same of a million bytes, and small ones behind them, in ${name}`, () => allAsTheySay([...long(1000000), ...NOTHING]));
    test(`A codes of 511 parentheses and of 255 pairs in ${name}`, () => allAsTheySay(DEEP));
});
