'use strict';
// What the page asks of the calls: an answer with what stands after each line, and of a refusal the line and the element that caused it.
const runs = (() => {
    // An F code that ends with more than one entry; the stack holds 16 at most.
    const LEFT_OVER = 18;
    const MOST_ENTRIES = 16;
    // Refused for one of its codes before anything runs, while it runs, and when it has run. Every other number is that of something that never ran.
    const BAD_CODE = [6, 7, LEFT_OVER];
    const IN_RUN = (refusal) => refusal >= 9 && refusal <= 15;
    const SHORT_OUTPUT = 16;
    const ran = (refusal) => refusal === 0 || IN_RUN(refusal) || refusal === SHORT_OUTPUT;

    // One line of the codes. An empty one is none, and an A code stands for its F text.
    function lineOf(text) {
        const line = { text, blank: text === '', code: bytes.of(text), formula: null, isDate: false };
        if (text[0] === 'A') {
            line.formula = sundewfrill.algebra(line.code);
            if (line.formula.refusal === 0) line.code = line.formula.answer;
        }
        // one D code: no text at all does not fit it, and a code that is none is 6
        line.isDate = text[0] === 'D' && sundewfrill.typedDate(line.code, new Uint8Array(0)).refusal === 12;
        return line;
    }

    const stringOf = (lines) => bytes.joined(lines.map((line) => line.code), bytes.VALUE);

    // Where an element stands: 2, or 2.1 where its value has several.
    function labelOf(at, all, i) {
        const isOneOfSeveral = at.s > 0 || all.subvalues[i] > 1 || all.values[i + 1] === all.values[i];
        return (at.v || all.values[i]) + (isOneOfSeveral ? '.' + (at.s || all.subvalues[i]) : '');
    }

    // The elements at an address, with the place of each by itself; a missing place counts as one empty element.
    function elementsAt(record, at) {
        const found = sundewfrill.find(record, at);
        if (found.refusal !== 0) return null;
        const part = record.subarray(found.start, found.start + found.length);
        const all = bytes.elements(part);
        const isWhole = found.found === 1 && at.a > 0;
        return {
            length: all.length,
            missing: found.found === 0,
            element: (i) => part.subarray(all.starts[i], all.ends[i]),
            label: (i) => labelOf(at, all, i),
            place: (i) => (isWhole ? { a: at.a, v: at.v || all.values[i], s: at.s || all.subvalues[i] } : at),
        };
    }

    // The elm at which an F code goes wrong, by the check of its fronts, each cut at a `;`: the stack at the first one that is refused with 7, the
    // grammar behind the longest one that is not refused with 6.
    function badElm(text, refusal) {
        let good = 2;
        const ends = [];
        for (let at = text.indexOf(';', 2); at >= 0; at = text.indexOf(';', at + 1)) ends.push(at);
        for (const end of ends.concat([text.length])) {
            const verdict = sundewfrill.check(bytes.of(text.slice(0, end))).refusal;
            if (refusal === 7 && verdict === 7) return { from: good, to: end };
            if (verdict !== 6) good = end + 1;
        }
        const next = text.indexOf(';', good);
        return { from: Math.min(good, text.length), to: next < 0 ? text.length : next };
    }

    // How many entries a code that is refused for them ends with, by the check: each join that is put behind it makes two of them one. Null where the
    // joins have no room.
    function entriesLeft(text) {
        for (let entries = 2; entries <= MOST_ENTRIES; entries++) {
            if (sundewfrill.check(bytes.of(text + ';:'.repeat(entries - 1))).refusal === 0) return entries;
        }
        return null;
    }

    const verdict = (text) => (text[0] === 'A' ? sundewfrill.algebra(bytes.of(text)) : sundewfrill.check(bytes.of(text))).refusal;

    // What was probably meant: capitals and perhaps no blanks outside of quotes. Nothing is offered that the calls cannot read; with it goes what it is
    // refused with, for its entries, 0 for nothing.
    function meant(text) {
        const parts = text.match(/'[^']*'|"[^"]*"|[^'"]+|['"]/g) || [];
        const mended = (mend) => parts.map((part) => (/^['"]/.test(part) ? part : mend(part.toUpperCase()))).join('');
        const capitals = mended((part) => part);
        const ways = [capitals, mended((part) => part.replace(/\s+/g, '')), capitals.replace(/^F(?!;)/, 'F;')];
        const code = ways.find((way) => way !== text && way !== '' && verdict(way) !== 6);
        return code === undefined ? null : { code, refusal: verdict(code) };
    }

    // Several codes in one line, parted by something else than lines are.
    function severalIn(text) {
        const codes = text.split(/[\s\],;]+/).filter(Boolean);
        return codes.length > 1 && codes.every((code) => verdict(code) === 0) ? codes : null;
    }

    // The bad line of a string that is refused for one of its codes; what an A code is refused with is told in place of the 6 that it would be as a
    // code. Of entries that are left over no one elm is the fault.
    function badLine(lines, refusal) {
        const line = lines.find(({ code }) => sundewfrill.check(code).refusal !== 0);
        const told = (line.formula && line.formula.refusal) || refusal;
        const isLeftOver = refusal === LEFT_OVER;
        const elm = line.text.startsWith('F;') && !isLeftOver ? badElm(line.text, refusal) : null;
        const entries = isLeftOver ? entriesLeft(line.text) : null;
        return { line, refusal: told, elm, entries, meant: meant(line.text), several: severalIn(line.text) };
    }

    // The first element whose turn is refused, where codes look at nothing but their element: by halves, each over a record of the first elements.
    function firstByHalves(elements, code, budget) {
        const front = (count) => {
            const list = Array.from({ length: count }, (_, i) => elements.element(i));
            const record = bytes.joined([new Uint8Array(0), bytes.joined(list, bytes.VALUE)], bytes.ATTRIBUTE);
            return sundewfrill.convert(record, code, { a: 1, v: 0, s: 0 }, budget);
        };
        let [good, bad] = [0, elements.length];
        while (bad - good > 1) {
            const half = (good + bad) >> 1;
            if (IN_RUN(front(half).refusal)) bad = half;
            else good = half;
        }
        return { index: bad - 1, left: budget - (good > 0 ? front(good).steps : 0) };
    }

    // The same where a code loads attributes: one by one, each on what the ones before have left of the budget. A load costs the record's length, so
    // that no more of them are tried than the budget has room for.
    function firstByTurns(record, elements, code, budget) {
        let left = budget;
        for (let index = 0; index < elements.length; index++) {
            const turn = sundewfrill.convert(record, code, elements.place(index), left);
            if (IN_RUN(turn.refusal)) return { index, left };
            left -= turn.steps;
        }
        return null;
    }

    // Which element was refused in its turn, at which line, and what that line was given; the element itself may be too long for any.
    function culprit(record, elements, lines, budget) {
        const code = stringOf(lines);
        const first = sundewfrill.check(code).loads === 0 ? firstByHalves(elements, code, budget) : firstByTurns(record, elements, code, budget);
        if (first === null) return null;
        const place = elements.place(first.index);
        let given = elements.element(first.index);
        for (let count = 0; count <= lines.length; count++) {
            const turn = sundewfrill.convert(record, stringOf(lines.slice(0, count)), place, first.left);
            if (turn.refusal !== 0) return { index: first.index, left: first.left, line: count > 0 ? lines[count - 1] : null, given };
            given = turn.answer;
        }
        return null;
    }

    // What each element is after each of the lines, for the elements that are seen: up to where it is refused.
    function turns(record, elements, lines, index, budget) {
        const after = [];
        for (let count = 1; count <= lines.length; count++) {
            const turn = sundewfrill.convert(record, stringOf(lines.slice(0, count)), elements.place(index), budget);
            after.push(turn);
            if (turn.refusal !== 0) break;
        }
        return after;
    }

    // Converting with the first lines alone, as far as they are codes and the budget goes; with all of them that is the run itself.
    function afterEach({ record, coded, at, budget, bad }, whole) {
        const end = bad ? coded.indexOf(bad.line) : coded.length;
        for (let i = 0; i < end; i++) {
            coded[i].after = i + 1 === coded.length ? whole : sundewfrill.convert(record, stringOf(coded.slice(0, i + 1)), at, budget);
            if (coded[i].after.refusal === 15) return;
        }
    }

    // All that the page shows of a record, an address as it is typed, the lines, and a budget.
    function run(record, addressText, texts, budget) {
        const lines = texts.map(lineOf);
        const coded = lines.filter((line) => !line.blank);
        const code = stringOf(coded);
        const at = bytes.address(addressText);
        const shown = { record, at, lines, coded, code, budget, refusal: 4, steps: 0, answer: new Uint8Array(0), ceiling: 0, bad: null, culprit: null };
        // "an address that is not in form is 4, before anything else"
        shown.elements = at && elementsAt(record, at);
        if (at === null) return shown;
        const whole = sundewfrill.convert(record, code, at, budget);
        Object.assign(shown, whole);
        shown.ceiling = sundewfrill.ceiling(record, code, at).ceiling;
        if (BAD_CODE.includes(shown.refusal)) {
            shown.bad = badLine(coded, shown.refusal);
            shown.refusal = shown.bad.refusal;
        }
        if (ran(shown.refusal) || shown.bad) afterEach(shown, whole);
        if (IN_RUN(shown.refusal)) shown.culprit = culprit(record, shown.elements, coded, budget);
        return shown;
    }

    return { run, turns, ran };
})();
