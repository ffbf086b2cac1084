// Writes the list of calls that are timed, which both sides read: on each line what it is, the name of the call, and its fields as in the vectors.
import { writeFileSync } from 'node:fs';
import library from '../calls.js';

const RECORD_LENGTH = 32768;
const CODE_LENGTH = 512;
const BUDGET = 1000000;
// The largest that can be typed in the page.
const LARGE_BUDGET = 999999999999999;

const hex = (text) => Buffer.from(text, 'latin1').toString('hex') || '-';
const row = (...fields) => fields.join('\t');
const values = (count, value) => Array.from({ length: count }, (_, i) => value(i)).join('\xfd');

// Converting all of attribute 1 on the buffers that the page lends by itself.
const convert = (what, record, code, budget = BUDGET) =>
    row(what, 'convert', hex(record), hex(code), 1, 0, 0, budget, library.OUTPUT_LENGTH, library.SCRATCH_LENGTH);
const algebra = (what, code) => row(what, 'acode', hex(code), library.OUTPUT_LENGTH);

// A string and then a literal that brings it to the most that a code string may have.
const padded = (text, open, close) => (text + open).padEnd(CODE_LENGTH - close.length, 'x') + close;

function checks() {
    const code = padded('F;1' + ';\'1\';2R;*;P;_;:;:'.repeat(28), ';\'', '\';:');
    return [row('checking an F code of 512 bytes', 'check', hex(code))];
}

// The last value of the last attribute in the longest record.
function atEnd() {
    const attribute = '\xfeabc\xfddefg\xfchij\xfdklmnopq, and some more text';
    const count = Math.floor((RECORD_LENGTH - 2) / attribute.length);
    const record = ('K1' + attribute.repeat(count)).padEnd(RECORD_LENGTH, 'r');
    return [
        row('finding at the end of a 32 KB record', 'find', hex(record), count, 3, 1),
        row('replacing at the end of a 32 KB record', 'replace', hex(record), count, 3, 1, hex('another text'), library.OUTPUT_LENGTH),
    ];
}

const empty = 'K1\xfe' + values(16000, () => '');

function small() {
    return [
        row('the ceiling of 16,000 values: two loads, product, mask', 'ceilingof', hex(empty), hex('F;1;2;*\xfdMR2,$(#16)'), 1, 0, 0),
        row('one typed date', 'date', hex('D4/'), hex('2/29/2000')),
        algebra('showing an A code of 16 bytes', 'A1*2+\'500\'/\'100\''),
        algebra('showing an A code of 512 bytes', padded('A1' + '+((2R*\'7\'))-R(3,(4))[1,(\'2\')]'.repeat(16), ':\'', '\'')),
    ];
}

// Runs over many elements, and two that the budget ends.
function long() {
    const prices = values(1500, (i) => i * 37 % 90000);
    const amounts = values(1500, (i) => i * 11 % 1000);
    const text = 'The quick brown fox, 42 lazy dogs; '.repeat(15).slice(0, 512);
    return [
        convert('1,500 elements through `MR2,$`', 'K1\xfe' + prices, 'MR2,$'),
        convert('1,500 elements through `F;1;2;*`', `K1\xfe${prices}\xfe${amounts}`, 'F;1;2;*', LARGE_BUDGET),
        convert('16,000 empty values, no codes', empty, ''),
        convert('84 sums an element until 1,000,000 steps are spent', 'K1\xfe' + prices, 'F;LPV' + ';\'7\';+;\'3\';-'.repeat(42)),
        convert('100 joins of nothing an element until they are spent', empty, 'F;LPV' + ';P;:'.repeat(100)),
        convert('512 bytes through MX', 'K1\xfe' + text, 'MX'),
    ];
}

const first = convert('`F;1;2R;*` on `K1^10]20^3`', 'K1\xfe10\xfd20\xfe3', 'F;1;2R;*');
writeFileSync(process.argv[2], [first, ...checks(), ...atEnd(), ...small(), ...long(), ''].join('\n'));
