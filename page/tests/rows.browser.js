'use strict';
// Runs in the built page: rows of the vectors by the page's own calls, on buffers full of noise, every byte of which is looked at behind the call.
const trying = (() => {
    const PROGRAM_READS = 65536;
    const PROGRAM_BUDGET = 1000000;
    const BAD_ADDRESS = 4;
    // What is refused before the run is refused of the ceiling too, but for the scratch, which it does not take.
    const EARLY = [1, 2, 3, 4, 5, 6, 7, 18];
    // Above it a number is no whole one any more.
    const EXACT = BigInt(Number.MAX_SAFE_INTEGER);
    // Of more than 32 bits, and of 64 at most.
    const GREAT = /^[0-9]{10,20}$/;
    const NOISE_TURN = 251;
    const SHOWN = 5;
    const noise = Uint8Array.from({ length: 65536 + NOISE_TURN }, (_, place) => (Math.imul(place + 1, 0x9e3779b1) >>> 16) % 255 + 1);

    let library = null;
    let turn = 0;
    // Whether numbers are given as BigInts even where they need not be.
    let big = false;

    const bytesOf = (field) => Uint8Array.from(field === '-' ? [] : field.match(/../g), (pair) => parseInt(pair, 16));
    const hexOf = (data) => data.length === 0 ? '-' : Array.from(data, (byte) => (byte + 256).toString(16).slice(1)).join('');
    const addressOf = (a, v, s) => ({ a: numberOf(a), v: numberOf(v), s: numberOf(s) });

    function numberOf(field) {
        const value = BigInt(field);
        return big || value > EXACT ? value : Number(value);
    }

    // The page's calls on an instance whose memory can be looked at: the first that is made, since the second is the spare one.
    async function begin() {
        await page.ready;
        const module = Uint8Array.from(atob(MODULE), (letter) => letter.charCodeAt(0));
        const instantiate = WebAssembly.instantiate;
        WebAssembly.instantiate = async (...given) => {
            const made = await instantiate(...given);
            library = library || made.exports;
            return made;
        };
        await sundewfrill.load(module);
        WebAssembly.instantiate = instantiate;
    }

    // A buffer without a single zero, another one each time.
    function lend(length) {
        turn = (turn + 1) % NOISE_TURN;
        const buffer = new Uint8Array(length);
        const part = noise.subarray(turn, turn + 65536);
        for (let at = 0; at < length; at += part.length) buffer.set(part.subarray(0, length - at), at);
        return buffer;
    }

    // Where the first byte is that is not the other's, -1 if there is none: plain loops, since a gigabyte is looked at.
    function differsAt(data, other) {
        for (let at = 0; at < data.length; at++) if (data[at] !== other[at]) return at;
        return -1;
    }

    function dirtyAt(buffer, from) {
        for (let at = from; at < buffer.length; at++) if (buffer[at] !== 0) return at;
        return -1;
    }

    // Whether one of the parts that were lent to be read is not as it was, in the page or in the module's memory.
    function changed(lent, before = lent) {
        let at = library.lent_at();
        return lent.some((part, i) => {
            const behind = new Uint8Array(library.memory.buffer, at, part.length);
            at = at + part.length + 7 & ~7;
            return differsAt(part, before[i]) >= 0 || differsAt(part, behind) >= 0;
        });
    }

    // Calls with these parts to read and these buffers, and adds to what it gives whatever is wrong with the bytes behind it.
    function called(read, output, scratch, call) {
        const before = read.map((part) => part.slice());
        const outcome = call();
        const wrong = [];
        if (changed(read, before)) wrong.push('what was lent to be read was changed');
        if (output && dirtyAt(output, outcome.length) >= 0) wrong.push('the output is not clear at byte ' + dirtyAt(output, outcome.length));
        if (output && outcome.refusal !== 0 && outcome.length !== 0) wrong.push('a refusal with a length');
        if (output && differsAt(outcome.answer, output) >= 0) wrong.push('the answer is not that of the output');
        if (scratch && dirtyAt(scratch, 0) >= 0) wrong.push('the scratch is not clear at byte ' + dirtyAt(scratch, 0));
        return { ...outcome, wrong };
    }

    function converted(record, code, at, budget, outputLength, scratchLength) {
        const [output, scratch] = [lend(outputLength), lend(scratchLength)];
        const outcome = called([record, code], output, scratch, () => sundewfrill.convert(record, code, at, budget, output, scratch));
        const most = called([record, code], null, null, () => sundewfrill.ceiling(record, code, at));
        const early = EARLY.includes(outcome.refusal) ? outcome.refusal : 0;
        if (most.refusal !== early || outcome.steps > most.ceiling) outcome.wrong.push(`the ceiling is ${most.ceiling}, its refusal ${most.refusal}`);
        outcome.wrong.push(...most.wrong);
        return outcome;
    }

    function replaced(record, fresh, at, outputLength) {
        const output = lend(outputLength);
        return called([record, fresh], output, null, () => sundewfrill.replace(record, fresh, at, output));
    }

    function shown(code, outputLength) {
        const output = lend(outputLength);
        return called([code], output, null, () => sundewfrill.algebra(code, output));
    }

    // Each call: from the fields of a row to the result in the form of the vectors, as fields, and what is wrong with the bytes.
    const calls = {
        find(record, a, v, s) {
            const lent = bytesOf(record);
            const { refusal, found, start, length, wrong } = called([lent], null, null, () => sundewfrill.find(lent, addressOf(a, v, s)));
            return [[refusal, found, hexOf(lent.subarray(start, start + length))], wrong];
        },
        replace(record, a, v, s, fresh, outputLength) {
            const { refusal, length, answer, wrong } = replaced(bytesOf(record), bytesOf(fresh), addressOf(a, v, s), Number(outputLength));
            return [[refusal, length, hexOf(answer)], wrong];
        },
        check(code) {
            const lent = bytesOf(code);
            const outcome = called([lent], null, null, () => sundewfrill.check(lent));
            return [['refusal', 'codeNumber', 'loads', 'others', 'patterns', 'tests'].map((name) => outcome[name]), outcome.wrong];
        },
        convert(record, code, a, v, s, budget, outputLength, scratchLength) {
            const lengths = [Number(outputLength), Number(scratchLength)];
            const outcome = converted(bytesOf(record), bytesOf(code), addressOf(a, v, s), numberOf(budget), ...lengths);
            return [[outcome.refusal, outcome.steps, outcome.length, hexOf(outcome.answer)], outcome.wrong];
        },
        ceilingof(record, code, a, v, s) {
            const lent = [bytesOf(record), bytesOf(code)];
            const { refusal, ceiling, wrong } = called(lent, null, null, () => sundewfrill.ceiling(...lent, addressOf(a, v, s)));
            if (refusal !== 0 && ceiling !== 0) wrong.push('a ceiling of what is refused');
            return [[ceiling], wrong];
        },
        date(code, text) {
            const lent = [bytesOf(code), bytesOf(text)];
            const { refusal, day, wrong } = called(lent, null, null, () => sundewfrill.typedDate(...lent));
            return [[refusal, day], wrong];
        },
        acode(code, outputLength) {
            const { refusal, length, answer, wrong } = shown(bytesOf(code), Number(outputLength));
            return [[refusal, length, hexOf(answer)], wrong];
        },
        program(input) {
            const { written, wrong } = program(bytesOf(input));
            return [[hexOf(written)], wrong];
        },
    };

    // Document 01's program: code, address and record on three lines, the refusal, steps and answer with its marks drawn on one.
    function program(input) {
        const [code, address, record] = [...bytes.cut(input.subarray(0, PROGRAM_READS), 10), new Uint8Array(), new Uint8Array()];
        const at = bytes.address(Array.from(address, (byte) => String.fromCharCode(byte)).join(''));
        const outcome = at ?
            converted(record, code, at, PROGRAM_BUDGET, sundewfrill.OUTPUT_LENGTH, sundewfrill.SCRATCH_LENGTH) :
            { refusal: BAD_ADDRESS, steps: 0, answer: [], wrong: [] };
        const drawn = { 254: '^', 253: ']', 252: '\\' };
        const answer = Array.from(outcome.answer, (byte) => drawn[byte] || String.fromCharCode(byte)).join('');
        const said = `${outcome.refusal} ${outcome.steps} ${answer}\n`;
        return { written: Uint8Array.from(said, (letter) => letter.charCodeAt(0)), wrong: outcome.wrong };
    }

    // One row: nothing where it is as it should be, else what it gave.
    function tried(call, given, wanted) {
        try {
            const [result, wrong] = calls[call](...given);
            return result.join(' ') === wanted && wrong.length === 0 ? null : { wanted, given: result.join(' '), wrong: wrong.join(', ') };
        } catch (trap) {
            return { wanted, given: '', wrong: String(trap) };
        }
    }

    // The same, and where it has a great number with BigInts too: the page's calls have another way for them.
    function difference(call, fields) {
        const given = fields.slice(0, calls[call].length);
        const wanted = fields.slice(given.length).join(' ');
        const differs = tried(call, given, wanted);
        if (differs || !given.some((field) => GREAT.test(field))) return differs;
        big = true;
        const also = tried(call, given, wanted);
        big = false;
        return also;
    }

    // Rows of one file, a line each; `call` is null where each of them begins with the name of its own. Gives how many were run of each call, and
    // how many differ, the first ones by their place.
    function rows(call, lines) {
        const ran = {};
        const differing = [];
        lines.forEach((line, place) => {
            const fields = line.split('\t');
            const name = call || fields.shift();
            const differs = difference(name, fields);
            if (differs) differing.push({ place, name, fields: fields.slice(0, calls[name].length), ...differs });
            ran[name] = (ran[name] || 0) + 1;
        });
        return { ran, differing: differing.length, first: differing.slice(0, SHOWN) };
    }

    return { begin, rows };
})();
