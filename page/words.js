'use strict';
// Refusals in words: the sentences of docs/REFUSALS.md, and what the page itself knows of a refusal.
const words = (() => {
    const ROW = /^\| ([0-9]+) \| (.*) \| (.*) \|$/;
    const sentences = new Map();
    for (const line of REFUSALS.split('\n')) {
        const row = ROW.exec(line);
        if (row) sentences.set(Number(row[1]), { when: row[2], advice: row[3] });
    }

    // 1,000,000
    const number = (value) => String(value).replace(/\B(?=([0-9]{3})+$)/g, ',');

    const counted = (value, what) => number(value) + ' ' + what + (value === 1 ? '' : 's');

    const address = ({ a, v, s }) => a + ',' + v + ',' + s;

    // Which element was refused in its turn.
    const refusedAt = ({ elements, culprit }) => 'It is the element at ' + address(elements.place(culprit.index));

    // What an address names.
    function place(at) {
        if (at.a === 0) return 'the id';
        if (at.v === 0) return 'all of attribute ' + at.a;
        if (at.s === 0) return 'value ' + number(at.v) + ' of attribute ' + at.a;
        return 'subvalue ' + number(at.s) + ' of value ' + number(at.v) + ' of attribute ' + at.a;
    }

    // What is wrong with an address.
    function badAddress(text) {
        const at = bytes.address(text);
        if (at === null) return 'An address is three numbers of 1 to 5 digits parted by commas, without blanks.';
        if (at.a === 0) return 'The id, which is attribute 0, has no values: its address is `0,0,0`.';
        if (at.a > 999) return 'Attribute ' + number(at.a) + ' is over 999.';
        if (at.v === 0 && at.s > 0) return 'Subvalue ' + number(at.s) + ' stands in no value: perhaps `' + at.a + ',1,' + at.s + '`?';
        return 'The value or the subvalue is over 32,768.';
    }

    return { sentences, number, counted, address, refusedAt, place, badAddress };
})();
