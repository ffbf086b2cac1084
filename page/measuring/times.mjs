// The table of times: the calls of a list in the page, in Chromium, and by a program with the archive in it, where there is one.
import { spawn } from 'node:child_process';
import { readFileSync } from 'node:fs';
import { createInterface } from 'node:readline';
import { SINGLE } from '../tests/built.mjs';
import { launch } from '../tests/chromium.mjs';

// How many rounds each side has; the best one counts.
const ROUNDS = 15;
const BROWSER_PART = readFileSync(new URL('browser.js', import.meta.url), 'utf8');
const [listName, nativeName] = process.argv.slice(2);
const list = readFileSync(listName, 'latin1').split('\n').slice(0, -1);

const HEAD = `\
The page's own calls in Chromium beside the same calls by the archive: the same inputs, which both are checked to answer alike, in the same run, by
turns; the best of ${ROUNDS} rounds. On either side a conversion clears 32,768 bytes of output and 20,480 of scratch. The browser's time has
everything in it that the page pays for a call. Whatever else the machine does meanwhile makes times longer. Ratio: browser over native.

| what | steps | native, ns a call | browser, ns a call | ratio |
|---|---:|---:|---:|---:|`;

// The native side: a question is answered by a line.
function nativeSide() {
    const child = spawn(nativeName, [listName], { stdio: ['pipe', 'pipe', 'inherit'] });
    const lines = createInterface({ input: child.stdout })[Symbol.asyncIterator]();
    // one that has ended gives no line, which is seen there
    child.on('error', () => {});
    child.stdin.on('error', () => {});
    const ask = async (question) => {
        child.stdin.write(question + '\n');
        const { value, done } = await lines.next();
        if (done) throw new Error('the native side has ended');
        return value;
    };
    return {
        give: (number) => ask(`give ${number}`),
        time: async (number) => Number(await ask(`time ${number}`)),
        close: () => child.stdin.end(),
    };
}

// The other side: the built page, once it has its library.
async function browserSide(browser) {
    const page = await browser.open(SINGLE);
    await page.until(() => sundewfrill.check(new Uint8Array(0)));
    await page.run(BROWSER_PART);
    await page.evaluate((calls) => measuring.take(calls), list);
    return {
        give: (number) => page.evaluate((call) => measuring.give(call), number),
        time: (number) => page.evaluate((call) => measuring.time(call), number),
    };
}

// Every call of both sides; they must give the same. Gives what each gave.
async function compared(sides) {
    const given = [];
    for (let number = 0; number < list.length; number++) {
        const [first, ...others] = await Promise.all(sides.map((side) => side.give(number)));
        if (others.some((other) => other !== first)) throw new Error(`the sides differ in '${list[number].split('\t')[0]}'`);
        given.push(first);
    }
    return given;
}

// The best time of each call on each side. A round goes over the whole list, so that a moment in which the machine is busy spoils no call's every round.
async function times(sides) {
    const best = list.map(() => sides.map(() => Infinity));
    for (let round = 0; round < ROUNDS; round++) {
        for (let number = 0; number < list.length; number++) {
            for (let side = 0; side < sides.length; side++) best[number][side] = Math.min(best[number][side], await sides[side].time(number));
        }
    }
    return best;
}

const shown = (nanoseconds) => Math.round(nanoseconds).toLocaleString('en');

function row(line, given, [browser, native]) {
    const [what, call] = line.split('\t');
    const steps = call === 'convert' ? shown(given.split(' ')[1]) : '-';
    const [plain, ratio] = native ? [shown(native), (browser / native).toFixed(1)] : ['-', '-'];
    return `| ${what} | ${steps} | ${plain} | ${shown(browser)} | ${ratio} |`;
}

async function table(chromium) {
    const native = nativeName ? nativeSide() : null;
    try {
        const sides = [await browserSide(chromium), ...(native ? [native] : [])];
        const given = await compared(sides);
        const best = await times(sides);
        console.log([HEAD, ...list.map((line, i) => row(line, given[i], best[i]))].join('\n'));
    } finally {
        if (native) native.close();
    }
}

const chromium = await launch();
try {
    await table(chromium);
} catch (error) {
    console.error('page/measure: ' + error.message);
    process.exitCode = 1;
} finally {
    await chromium.close();
}
