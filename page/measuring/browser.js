'use strict';
// Runs in the built page: the list of calls by the page's own `sundewfrill`. What a call gives is written as native.c writes it.
const measuring = (() => {
    // How long a round takes at least: the browser's clock goes by tenths of a millisecond.
    const ROUND_MS = 20;
    const NS = 1000000;

    const bytesOf = (field) => Uint8Array.from(field === '-' ? [] : field.match(/../g), (pair) => parseInt(pair, 16));
    const hexOf = (data) => data.length === 0 ? '-' : Array.from(data, (byte) => (byte + 256).toString(16).slice(1)).join('');
    const addressOf = (a, v, s) => ({ a: Number(a), v: Number(v), s: Number(s) });
    const answered = ({ length, answer }) => [length, hexOf(answer)];

    // Each call from its fields: what calls it, with the buffers that the page lends by itself; and what stands behind the refusal in what it gives.
    const forms = {
        find(record, a, v, s) {
            const [data, at] = [bytesOf(record), addressOf(a, v, s)];
            return [() => sundewfrill.find(data, at), ({ found, start, length }) => [found, start, length]];
        },
        replace(record, a, v, s, fresh) {
            const [data, other, at] = [bytesOf(record), bytesOf(fresh), addressOf(a, v, s)];
            return [() => sundewfrill.replace(data, other, at), answered];
        },
        check(code) {
            const data = bytesOf(code);
            const names = ['codeNumber', 'loads', 'others', 'patterns', 'tests'];
            return [() => sundewfrill.check(data), (outcome) => names.map((name) => outcome[name])];
        },
        convert(record, code, a, v, s, budget) {
            const [data, string, at, most] = [bytesOf(record), bytesOf(code), addressOf(a, v, s), Number(budget)];
            return [() => sundewfrill.convert(data, string, at, most), (outcome) => [outcome.steps, ...answered(outcome)]];
        },
        ceilingof(record, code, a, v, s) {
            const [data, string, at] = [bytesOf(record), bytesOf(code), addressOf(a, v, s)];
            return [() => sundewfrill.ceiling(data, string, at), (outcome) => [outcome.ceiling]];
        },
        date(code, text) {
            const [string, typed] = [bytesOf(code), bytesOf(text)];
            return [() => sundewfrill.typedDate(string, typed), ({ day }) => [day < 0 ? 1 : 0, Math.abs(day)]];
        },
        acode(code) {
            const data = bytesOf(code);
            return [() => sundewfrill.algebra(data), answered];
        },
    };

    let calls = [];

    function take(list) {
        calls = list.map((line) => {
            const [, name, ...fields] = line.split('\t');
            return forms[name](...fields);
        });
    }

    function give(number) {
        const [call, rest] = calls[number];
        const outcome = call();
        return [outcome.refusal, ...rest(outcome)].join(' ');
    }

    // One round: the call over and over, twice as often each time, until that takes long enough. Gives nanoseconds a call.
    function time(number) {
        const [call] = calls[number];
        for (let times = 1; ; times *= 2) {
            const started = performance.now();
            for (let i = 0; i < times; i++) call();
            const taken = performance.now() - started;
            if (taken >= ROUND_MS) return taken * NS / times;
        }
    }

    return { take, give, time };
})();
