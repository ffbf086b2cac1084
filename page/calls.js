'use strict';
// The seven calls of the proved library: bytes and plain numbers in, plain objects out. No other file touches the module or its memory.
// A number that is given is a whole one from 0 to 2^53 - 1, or a BigInt below 2^64 where the browser has them.
const sundewfrill = (() => {
    // "the scratch is 20,480 bytes", and the program's output is 32,768
    const SCRATCH_LENGTH = 20480;
    const OUTPUT_LENGTH = 32768;
    const PAGE = 65536;
    // No call gives it, so that a number which the library leaves unwritten cannot pass for one that it gave.
    const UNWRITTEN = 0xffffffff;
    const WORDS_TOLD = 6;
    // Buffers that nobody lends stand in the module's memory alone: the library clears them itself, and making 53 KB anew takes longer than the call.
    const OWN_OUTPUT = { length: OUTPUT_LENGTH };
    const OWN_SCRATCH = { length: SCRATCH_LENGTH };

    let compiled = null;
    let library = null;
    // An instance for after a trap, made beforehand: making one at once is refused by older browsers.
    let spare = null;
    // The memory as it is seen from here, and where the words and the bytes of a call stand in it.
    let memory = null;
    let view = null;
    let given = 0;
    let told = 0;
    let lent = 0;

    function see() {
        memory = new Uint8Array(library.memory.buffer);
        view = new DataView(library.memory.buffer);
    }

    function begin(instance) {
        library = instance.exports;
        [given, told, lent] = [library.given_at(), library.told_at(), library.lent_at()];
        see();
    }

    async function makeSpare() {
        spare = await WebAssembly.instantiate(compiled, {});
    }

    // Compiles the module; the calls answer once this has.
    async function load(bytes) {
        compiled = await WebAssembly.compile(bytes);
        begin(await WebAssembly.instantiate(compiled, {}));
        await makeSpare();
    }

    // Growing takes the memory away from whoever looks at it.
    function makeRoom(end) {
        if (end <= memory.length) return;
        library.memory.grow(Math.ceil((end - memory.length) / PAGE));
        see();
    }

    // Where each of the parts stands, one behind the other at multiples of 8; and behind the last one the end.
    function placesOf(parts) {
        const places = [lent];
        for (let i = 0; i < parts.length; i++) places.push((places[i] + parts[i].length + 7) & ~7);
        return places;
    }

    function putWord(at, value) {
        if (typeof value === 'bigint') return view.setBigUint64(at, value, true);
        view.setUint32(at, value % 0x100000000, true);
        view.setUint32(at + 4, Math.floor(value / 0x100000000), true);
    }

    function wordAt(at) {
        return view.getUint32(at + 4, true) * 0x100000000 + view.getUint32(at, true);
    }

    const isLent = (part) => part !== OWN_OUTPUT && part !== OWN_SCRATCH;

    function putParts(places, parts) {
        for (let i = 0; i < parts.length; i++) {
            if (isLent(parts[i])) memory.set(parts[i], places[i]);
            putWord(given + 16 * i, places[i]);
            putWord(given + 16 * i + 8, parts[i].length);
        }
    }

    function putNumbers(at, numbers) {
        for (let i = 0; i < numbers.length; i++) putWord(at + 8 * i, numbers[i]);
        for (let i = 0; i < 2 * WORDS_TOLD; i++) view.setUint32(told + 4 * i, UNWRITTEN, true);
    }

    function run(name) {
        try {
            library[name]();
        } catch (trap) {
            // what a trap leaves behind is not to be trusted: the next call has another instance
            begin(spare);
            makeSpare();
            throw trap;
        }
    }

    function wordsTold() {
        const words = [];
        for (let i = 0; i < WORDS_TOLD; i++) words.push(wordAt(told + 8 * i));
        return words;
    }

    // One call: the first `read` of `parts` are lent to be read, and the others come back as the call left them; gives the refusal, the numbers behind
    // it, and where the first of these others stands.
    function call(name, parts, read, numbers) {
        const places = placesOf(parts);
        makeRoom(places[parts.length]);
        putParts(places, parts);
        putNumbers(given + 16 * parts.length, numbers);
        run(name);
        for (let i = read; i < parts.length; i++) {
            if (isLent(parts[i])) parts[i].set(memory.subarray(places[i], places[i] + parts[i].length));
        }
        return { words: wordsTold(), place: places[read] };
    }

    const placeOf = (at) => [at.a, at.v, at.s];
    const answerAt = (place, length, output) => memory.slice(place, place + Math.min(length, output.length));

    function find(record, at) {
        const [refusal, found, start, length] = call('find', [record], 1, placeOf(at)).words;
        return { refusal, found, start, length };
    }

    function replace(record, fresh, at, output = OWN_OUTPUT) {
        const { words: [refusal, length], place } = call('replace', [record, fresh, output], 2, placeOf(at));
        return { refusal, length, answer: answerAt(place, length, output) };
    }

    function check(code) {
        const [refusal, codeNumber, loads, others, patterns, tests] = call('check', [code], 1, []).words;
        return { refusal, codeNumber, loads, others, patterns, tests };
    }

    function convert(record, code, at, budget, output = OWN_OUTPUT, scratch = OWN_SCRATCH) {
        const { words: [refusal, steps, length], place } = call('convert', [record, code, output, scratch], 2, [at.a, at.v, at.s, budget]);
        return { refusal, steps, length, answer: answerAt(place, length, output) };
    }

    function ceiling(record, code, at) {
        const [refusal, most] = call('ceiling', [record, code], 2, placeOf(at)).words;
        return { refusal, ceiling: most };
    }

    function typedDate(code, text) {
        const [refusal, negative, size] = call('typed_date', [code, text], 2, []).words;
        return { refusal, day: negative === 1 ? -size : size };
    }

    function algebra(code, output = OWN_OUTPUT) {
        const { words: [refusal, length], place } = call('algebra', [code, output], 1, []);
        return { refusal, length, answer: answerAt(place, length, output) };
    }

    return { load, find, replace, check, convert, ceiling, typedDate, algebra, SCRATCH_LENGTH, OUTPUT_LENGTH };
})();
if (typeof module !== 'undefined') module.exports = sundewfrill;
