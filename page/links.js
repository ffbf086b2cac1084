'use strict';
// An exercise as a link: what stands behind its # says record, address, codes, and perhaps a budget, a task and the answer that is wanted.
const links = (() => {
    const BUDGET = 1000000;
    // So many steps take about a second; a link or a slip of the hand is not to stop the page for longer.
    const MOST_BUDGET = 100000000;

    // "%41" and "A" alike; what no text can show is %FB.
    function decoded(text) {
        const data = [];
        for (let at = 0; at < text.length; at++) {
            const pair = /^%([0-9A-Fa-f]{2})/.exec(text.slice(at, at + 3));
            if (pair) {
                data.push(parseInt(pair[1], 16));
                at += 2;
            } else {
                const letter = String.fromCodePoint(text.codePointAt(at));
                data.push(...bytes.of(letter));
                at += letter.length - 1;
            }
        }
        return Uint8Array.from(data);
    }

    const escaped = (byte) => '%' + (byte < 16 ? '0' : '') + byte.toString(16).toUpperCase();
    // What may stand in a link as it is, and is not taken for its end by a program that shows the link in a text.
    const PLAIN = /[A-Za-z0-9._~*,;$:!/-]/;

    const encoded = (data) => Array.from(data, (byte) => {
        const letter = String.fromCharCode(byte);
        return byte < 128 && PLAIN.test(letter) ? letter : escaped(byte);
    }).join('');

    const textOf = (value) => bytes.plain(decoded(value));

    // The names and values behind the #, in their order.
    function pairs(fragment) {
        return fragment.replace(/^#/, '').split('&').filter((pair) => pair.includes('=')).map((pair) => {
            const at = pair.indexOf('=');
            return [pair.slice(0, at), pair.slice(at + 1)];
        });
    }

    // What a link says: the record and the wanted answer as bytes, everything else as text; null where it names no record.
    function read(fragment) {
        const said = { record: null, at: '1,0,0', codes: [], budget: BUDGET, title: '', task: '', wanted: null };
        for (const [name, value] of pairs(fragment)) {
            if (name === 'record') said.record = bytes.typed(textOf(value));
            else if (name === 'bytes') said.record = decoded(value);
            else if (name === 'wanted') said.wanted = bytes.typed(textOf(value));
            else if (name === 'wantedbytes') said.wanted = decoded(value);
            else if (name === 'code') said.codes.push(textOf(value));
            else if (name === 'budget' && /^[0-9]{1,9}$/.test(value)) said.budget = Math.min(Number(value), MOST_BUDGET);
            else if (['at', 'title', 'task'].includes(name)) said[name] = bytes.plain(decoded(value), new Set());
        }
        return said.record === null ? null : said;
    }

    // Bytes under a name as they are typed, or where a text cannot show them all as they are.
    function bytesAs(name, rawName, data) {
        const text = bytes.drawn(data);
        const clear = Array.from(text).every((letter) => letter.length === 2 || !bytes.isLone(letter.charCodeAt(0)));
        return clear ? name + '=' + encoded(bytes.of(text)) : rawName + '=' + encoded(data);
    }

    function write(said) {
        const text = (name) => said[name] ? [name + '=' + encoded(bytes.of(said[name]))] : [];
        return '#' + [
            ...text('title'),
            ...text('task'),
            bytesAs('record', 'bytes', said.record),
            'at=' + encoded(bytes.of(said.at)),
            ...said.codes.map((code) => 'code=' + encoded(bytes.of(code))),
            ...(said.budget === undefined || said.budget === BUDGET ? [] : ['budget=' + said.budget]),
            ...(said.wanted ? [bytesAs('wanted', 'wantedbytes', said.wanted)] : []),
        ].join('&');
    }

    return { BUDGET, MOST_BUDGET, read, write };
})();
