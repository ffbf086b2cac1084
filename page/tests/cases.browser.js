'use strict';
// Runs in the page: cases by a seeded generator, what the page's own parts say of each held against brute force over single elements.
const cases = (() => {
    const WHOLE_BUDGET = 1000000;
    const SHOWN = 5;
    const PLAIN = ['MCU', 'MCL', 'MCT', 'MCA', 'MCN', 'MC/A', 'MC/N', 'MX', 'MY', 'MY', 'ML2', 'MR2,$', 'MR(#4)', 'MR2(#6)', 'MR9', 'D', 'D2/', 'D4-',
        'T2', 'T2,3', 'L', 'L2', 'L1,3', 'G1-1', 'G,1', 'P(2N);(3A)', 'F;LPV;LPV;:', 'F;LPV;\'1\';+', 'F;LPV;\'0\';/', 'F;\'a\';LPV;:', 'F;LPV;(MCU);(L)'];
    const LOADING = ['F;1', 'F;1;2;*', 'F;1;2R;/', 'F;1;2;:', 'F;2;1;R', 'F;1;(MR2)', 'F;3RR;1;-', 'F;LPV;2;+', 'A1+2', 'A1*\'3\'', 'A1:2', 'AR(1,2)'];
    // F codes that end with several entries, and how many.
    const LEFT_OVER = new Map([['F;1;2', 2], ['F;LPV;P;P', 3], ['F;1;2;3;\'a\';_', 4], ['F;1;2;:;LPV', 2], ['F' + ';1'.repeat(16), 16]]);
    const BAD = ['mcu', 'F;+', 'F;1;', 'A1+', 'A', 'X', 'MR2 ', 'F;1;+', 'F' + ';1'.repeat(17), ...LEFT_OVER.keys()];
    const TEXTS = ['', '', '1', '12', '-7', '0', 'abc', 'AB', '4142', 'FE', '41FB', '99999999', '999999999999999', '1.5', '10000', 'x-y-z', ' 5 ', 'é', 'a,b'];

    // The same numbers at every run: mulberry32.
    function generator(seed) {
        let state = seed;
        const number = (below) => {
            state = (state + 0x6d2b79f5) | 0;
            let mixed = Math.imul(state ^ (state >>> 15), state | 1);
            mixed ^= mixed + Math.imul(mixed ^ (mixed >>> 7), mixed | 61);
            return ((mixed ^ (mixed >>> 14)) >>> 0) % below;
        };
        const one = (list) => list[number(list.length)];
        const several = (most, make) => Array.from({ length: 1 + number(most) }, make);
        return { number, one, several };
    }

    // Attributes of values of subvalues; now and then an element that is long, or too long.
    function recordOf({ number, one, several }) {
        const text = () => number(60) === 0 ? 'x'.repeat(one([600, 1024, 1025])) : one(TEXTS);
        return several(4, () => several(4, () => several(3, text)));
    }

    const bytesOf = (attributes) => bytes.typed(['K1', ...attributes.map((values) => values.map((parts) => parts.join('\\')).join(']'))].join('^'));

    function linesOf({ number, one, several }) {
        const kind = number(12);
        if (kind === 0) return several(3, () => one([...PLAIN, ...BAD, '']));
        return several(3, () => one(kind < 6 ? PLAIN : kind < 11 ? [...PLAIN, ...LOADING] : [...LOADING, '']));
    }

    function addressOf({ number, one }) {
        const whole = `${1 + number(3)},0,0`;
        return one([whole, whole, `1,${1 + number(4)},0`, `1,${1 + number(3)},${1 + number(3)}`, '0,0,0']);
    }

    // The elements at an address with their places and labels, by the lists that the record was made of.
    function elementsOf(attributes, { a, v, s }) {
        const values = attributes[a - 1];
        const label = (i, j, isMany) => i + (isMany ? '.' + j : '');
        if (a === 0) return [{ text: 'K1', at: { a, v, s }, label: '1' }];
        const isThere = values && v <= values.length && (v === 0 || s <= values[v - 1].length);
        if (!isThere) return [{ text: '', at: { a, v, s }, label: label(v || 1, s, s > 0), isMissing: true }];
        const all = values.map((parts, i) => parts.map((text, j) => {
            const isMany = parts.length > 1 || s > 0;
            return { text, at: { a, v: i + 1, s: j + 1 }, label: label(i + 1, j + 1, isMany) };
        }));
        return all.flat().filter(({ at }) => (v === 0 || at.v === v) && (s === 0 || at.s === s));
    }

    const shown = (answer) => bytes.drawn(answer);

    // A line as the code that runs, and what it is refused with as one.
    function codeOf(text) {
        const algebra = text[0] === 'A' ? sundewfrill.algebra(bytes.of(text)) : null;
        if (algebra && algebra.refusal !== 0) return { text, refusal: algebra.refusal, code: null };
        const code = algebra ? algebra.answer : bytes.of(text);
        return { text, refusal: sundewfrill.check(code).refusal, code };
    }

    // Each element by itself on what is left of the budget, up to the first that is refused.
    function byTurns(record, elements, codes, budget) {
        const convert = (count, at, left) => sundewfrill.convert(record, bytes.joined(codes.slice(0, count), bytes.VALUE), at, left);
        let left = budget;
        for (let index = 0; index < elements.length; index++) {
            const { at } = elements[index];
            const turn = convert(codes.length, at, left);
            if (turn.refusal !== 0) {
                const count = [...codes.keys(), codes.length].find((some) => convert(some, at, left).refusal !== 0);
                const given = count > 0 ? shown(convert(count - 1, at, left).answer) : elements[index].text;
                return { refusal: turn.refusal, steps: budget - left + turn.steps, index, left, line: count - 1, given };
            }
            left -= turn.steps;
        }
        return { refusal: 0, steps: budget - left };
    }

    // Notes what differs, as words.
    class Differences extends Array {
        same(what, given, wanted) {
            const [one, other] = [JSON.stringify(given), JSON.stringify(wanted)];
            if (one !== other) this.push(`${what}: ${one}, not ${other}`);
        }
    }

    // The elements by the page's own lists, and each by the proved call.
    function sameElements(wrong, record, told, elements) {
        const listed = Array.from({ length: told.length }, (_, i) => [shown(told.element(i)), told.place(i), told.label(i)]);
        wrong.same('elements', listed, elements.map(({ text, at, label }) => [text, at, label]));
        elements.filter(({ isMissing }) => !isMissing).forEach(({ text, at }) => {
            const found = sundewfrill.find(record, at);
            wrong.same('found', [found.found, shown(record.slice(found.start, found.start + found.length))], [1, text]);
        });
    }

    // What stands after each line; behind one that the budget has no room for nothing does.
    function sameLines(wrong, record, at, told, codes) {
        let isOver = false;
        codes.forEach((_, i) => {
            const { refusal, steps, answer } = sundewfrill.convert(record, bytes.joined(codes.slice(0, i + 1), bytes.VALUE), at, told.budget);
            const { after } = told.coded[i];
            const given = after ? [after.refusal, after.steps, shown(after.answer)] : null;
            wrong.same('after line ' + (i + 1), given, isOver ? null : [refusal, steps, shown(answer)]);
            isOver = isOver || refusal === 15;
        });
    }

    function sameRun(wrong, told, brute) {
        wrong.same('refusal and steps', [told.refusal, told.steps], [brute.refusal, brute.steps]);
        const { culprit } = told;
        const whose = culprit && { index: culprit.index, left: culprit.left, line: told.coded.indexOf(culprit.line), given: shown(culprit.given) };
        wrong.same('culprit', whose, brute.refusal === 0 ? null : { index: brute.index, left: brute.left, line: brute.line, given: brute.given });
    }

    function sameBad(wrong, told, lines, bad) {
        const { text, refusal } = lines[bad];
        wrong.same('bad line', [told.refusal, told.coded.indexOf(told.bad.line), told.culprit, told.steps], [refusal, bad, null, 0]);
        wrong.same('entries left', told.bad.entries, LEFT_OVER.get(text) || null);
        wrong.same('an elm is at fault', told.bad.elm !== null, text.startsWith('F;') && !LEFT_OVER.has(text));
    }

    // What is wrong with what runs.run says of a case, as words; nothing if nothing is.
    function wrongWith({ attributes, address, texts, budget }, told) {
        const record = bytesOf(attributes);
        const at = bytes.address(address);
        const elements = elementsOf(attributes, at);
        const wrong = new Differences();
        sameElements(wrong, record, told.elements, elements);
        const lines = texts.filter((text) => text !== '').map(codeOf);
        const bad = lines.findIndex(({ refusal }) => refusal !== 0);
        if (bad >= 0) sameBad(wrong, told, lines, bad);
        const codes = lines.slice(0, bad < 0 ? lines.length : bad).map(({ code }) => code);
        sameLines(wrong, record, at, told, codes);
        if (bad < 0) sameRun(wrong, told, byTurns(record, elements, codes, budget));
        return wrong;
    }

    // Tries so many cases; gives how often each refusal came, and the first cases of which something is wrong.
    function runsOf(seed, count) {
        const random = generator(seed);
        const all = { ran: 0, refusals: {}, wrong: [] };
        for (; all.ran < count; all.ran++) {
            const asked = { attributes: recordOf(random), address: addressOf(random), texts: linesOf(random) };
            asked.budget = random.number(2) ? random.number(400) : WHOLE_BUDGET;
            const told = runs.run(bytesOf(asked.attributes), asked.address, asked.texts, asked.budget);
            all.refusals[told.refusal] = (all.refusals[told.refusal] || 0) + 1;
            const wrong = wrongWith(asked, told);
            if (wrong.length > 0 && all.wrong.length < SHOWN) all.wrong.push([JSON.stringify(asked), ...wrong].join('\n    '));
        }
        return all;
    }

    const NASTY = [0, 10, 13, 32, 34, 35, 37, 38, 39, 43, 60, 61, 92, 93, 94, 127, 128, 0xc3, 0xa9, 0xed, 0xa0, 251, 252, 253, 254, 255];

    const dataOf = ({ number, one }) => Uint8Array.from({ length: number(24) }, () => number(2) ? one(NASTY) : number(256));

    function saidOf(random) {
        const { one, several } = random;
        const text = () => bytes.plain(dataOf(random));
        return {
            record: dataOf(random), at: one(['1,0,0', 'x y', '1,2,3']), codes: several(3, text), budget: one([0, 1, 344, WHOLE_BUDGET, links.MOST_BUDGET]),
            title: text(), task: text(), wanted: one([null, dataOf(random)]),
        };
    }

    // A byte may stand in a text in two ways: texts are the same where their bytes are.
    const listOf = ({ record, at, codes, budget, title, task, wanted }) => JSON.stringify([
        Array.from(record), at, budget, ...[title, task, ...codes].map((text) => Array.from(bytes.of(text))), wanted && Array.from(wanted),
    ]);

    // Texts and links that show bytes give the same bytes back; the first that do not.
    function bytesAndLinks(seed, count) {
        const random = generator(seed);
        const wrong = [];
        const same = (what, data, given) => bytes.same(data, given) || wrong.push(what + ': ' + Array.from(data));
        for (let i = 0; i < count; i++) {
            const data = dataOf(random);
            same('drawn and typed', data, bytes.typed(bytes.drawn(data)));
            same('plain', data, bytes.of(bytes.plain(data)));
            const said = saidOf(random);
            const link = links.write(said);
            // as a browser hands it on
            const given = listOf(links.read(new URL('file:///practice.html' + link).hash));
            if (given !== listOf(said)) wrong.push(`${link} says ${given}, not ${listOf(said)}`);
        }
        return wrong.slice(0, SHOWN);
    }

    return { runsOf, bytesAndLinks };
})();
