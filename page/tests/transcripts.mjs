// The runs that documents show: a line that begins with `$ ./console`, and under it what it prints.
import { read } from './learner.mjs';

// One word of a shell's line: quotes are undone as a shell does.
function wordsOf(line) {
    const pieces = line.match(/(?:'[^']*'|"(?:[^"\\]|\\.)*"|[^\s'"])+/g) || [];
    return pieces.map((piece) => piece.replace(/'([^']*)'|"((?:[^"\\]|\\.)*)"/g, (_, single, double) => single ?? double.replace(/\\([$`"\\])/g, '$1')));
}

// Each run as its words behind ./console, and the lines of standard output and standard error under it.
export function transcriptsOf(file) {
    const runs = [];
    let open = null;
    for (const line of read(file).split('\n')) {
        const typed = /^ {4}\$ \.\/console (.*)$/.exec(line);
        if (typed) runs.push(open = { words: wordsOf(typed[1]), output: [] });
        else if (open && line.startsWith('    ')) open.output.push(line.slice(4));
        else open = null;
    }
    return runs;
}

// What a transcript is in the page: where, on what, by which codes, and what is to be seen.
export function lessonOf({ words, output }) {
    const refusal = (output.find((line) => line.startsWith('console: refusal')) || '').replace(/^console: refusal ([0-9]+):.*$/, '$1');
    if (words[0] === 'algebra') {
        const [, formula] = /^refusal = 0, F code = (.*)$/.exec(output[0]);
        const [, steps, answer] = /^refusal = 0, steps = ([0-9]+), answer = (.*)$/.exec(output[1]);
        return { at: words[2], record: words[3], codes: [words[1]], formula, steps, answer };
    }
    if (words[0] === 'ceiling') {
        return { at: words[1], record: words[2], codes: words.slice(3), ceiling: /^refusal = 0, ceiling = ([0-9]+)$/.exec(output[0])[1] };
    }
    const [, number, steps, answer] = /^([0-9]+) ([0-9]+) (.*)$/.exec(output[0]);
    if (number !== '0' && number !== refusal) throw new Error('the two numbers of a refusal differ: ' + output.join('\n'));
    return { at: words[0], record: words[1], codes: words.slice(2), ...(number === '0' ? { steps, answer } : { refusal: Number(number) }) };
}

// The rows of the tables of a document whose heads are record, code, prints. Between two codes stands `then`.
export function examplesOf(file) {
    const rows = [];
    let isInside = false;
    for (const line of read(file).split('\n')) {
        if (/^\| record \| code \| prints \|$/.test(line)) isInside = true;
        else if (!line.startsWith('|')) isInside = false;
        else if (isInside && !/^\|---/.test(line)) rows.push(line);
    }
    return rows.map((row) => {
        const [, record, codes, prints] = /^\| `([^`]*)` \| (`[^`]*`(?: then `[^`]*`)*) \| `([^`]*)` \|$/.exec(row);
        return { record, codes: codes.slice(1, -1).split('` then `'), prints };
    });
}
