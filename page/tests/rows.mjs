// All rows of the vectors through the page's own calls, in a browser: host/tests/vectors/README.md says what they are and how many.
import { readFileSync } from 'node:fs';
import { resolve } from 'node:path';
import { REPOSITORY } from './built.mjs';

// How many rows of which call each file has. In those named L, each row begins with the name of its call.
export const FILES = {
    'find.tsv': { find: 1500 },
    'replace.tsv': { replace: 1500 },
    'check.tsv': { check: 2500 },
    'convert.tsv': { convert: 6000 },
    'give.tsv': { convert: 6000 },
    'date.tsv': { date: 1500 },
    'program.tsv': { program: 1500 },
    'L1.tsv': { check: 358, convert: 391, ceilingof: 227, date: 24, find: 28, replace: 33, program: 155 },
    'L2.tsv': { check: 26, convert: 1138, ceilingof: 16, date: 24, find: 28, replace: 33, program: 49 },
    'L3.tsv': { check: 26, convert: 1007, ceilingof: 16, date: 25, find: 28, replace: 33, program: 51 },
    'L4.tsv': { check: 27, convert: 326, ceilingof: 16, date: 24, find: 28, replace: 31, program: 49, acode: 858 },
    'L5.tsv': { check: 351, convert: 347, ceilingof: 101, date: 18, find: 21, replace: 33, program: 123, acode: 28 },
    'L6.tsv': { check: 29, convert: 430, ceilingof: 16, date: 462, find: 21, replace: 33, program: 46, acode: 27 },
};
export const ROWS = 27661;

const CHUNK = 1 << 20;
const SHOWN = 5;
// A line that is longer is named by its place alone.
const LONGEST_SHOWN = 1000;
const BROWSER_PART = readFileSync(new URL('rows.browser.js', import.meta.url), 'utf8');

// The page with everything in it that runs rows.
export async function ready(browser, address) {
    const page = await browser.open(address);
    await page.run(BROWSER_PART);
    await page.evaluate(() => trying.begin());
    return page;
}

const callOf = (file) => file.startsWith('L') ? null : Object.keys(FILES[file])[0];

function linesOf(file) {
    return readFileSync(resolve(REPOSITORY, 'host/tests/vectors', file), 'latin1').split('\n').slice(0, -1);
}

// Pieces of a megabyte or so, each with the number of its first line.
function* chunksOf(lines) {
    let begun = 0;
    let length = 0;
    for (let i = 0; i < lines.length; i++) {
        length += lines[i].length;
        if (length < CHUNK && i < lines.length - 1) continue;
        yield { first: begun + 1, rows: lines.slice(begun, i + 1) };
        begun = i + 1;
        length = 0;
    }
}

// A row that differs, its call as the host's batch program reads it.
function words(file, first, { place, name, fields, wanted, given, wrong }) {
    const cut = (text) => text.length > LONGEST_SHOWN ? `${text.slice(0, LONGEST_SHOWN)}... (${text.length} characters)` : text;
    const lines = [`${file} row ${first + place}:`, cut([name, ...fields].join('\t')), 'expected ' + cut(wanted), 'gave     ' + cut(given)];
    return [...lines, ...(wrong ? ['and ' + wrong] : [])].join('\n    ');
}

// Runs rows that are all of one call, or begin with the name of theirs where that is null. Gives how many were run of each call, how many differ, and
// the first ones in words.
export async function runLines(page, file, call, lines) {
    const total = { ran: {}, differing: 0, first: [] };
    for (const { first, rows } of chunksOf(lines)) {
        const part = await page.evaluate((name, chunk) => trying.rows(name, chunk), call, rows);
        for (const [name, count] of Object.entries(part.ran)) total.ran[name] = (total.ran[name] || 0) + count;
        total.differing += part.differing;
        total.first.push(...part.first.map((row) => words(file, first, row)));
    }
    return { ...total, first: total.first.slice(0, SHOWN) };
}

export const run = (page, file) => runLines(page, file, callOf(file), linesOf(file));
