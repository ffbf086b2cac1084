'use strict';
// Bytes and the texts that show them: marks drawn as ^ ] \, and a record cut at its marks.
const bytes = (() => {
    // "Marks are bytes of our choosing by Pick custom", and as they are drawn.
    const ATTRIBUTE = 254;
    const VALUE = 253;
    const SUBVALUE = 252;
    const DRAWN = { [ATTRIBUTE]: '^', [VALUE]: ']', [SUBVALUE]: '\\' };
    // "three numbers of 1 to 5 digits parted by commas"
    const ADDRESS = /^([0-9]{1,5}),([0-9]{1,5}),([0-9]{1,5})$/;
    // A byte that no text can show stands there as this and the byte: half of a pair, which no text has by itself.
    const LONE = 0xdc00;
    // A control byte shows nothing, and a line end would end its line; a plain ^ ] or \ in a record would look like a mark.
    const CONTROL = [127].concat(Array.from({ length: 32 }, (_, i) => i));
    const HIDDEN = new Set(CONTROL.concat([92, 93, 94]));
    const HIDDEN_IN_CODES = new Set(CONTROL);

    const utf8 = new TextDecoder('utf-8', { fatal: true, ignoreBOM: true });
    const encoder = new TextEncoder();

    const lone = (byte) => String.fromCharCode(LONE + byte);
    const isLone = (unit) => unit >= LONE && unit <= LONE + 255;

    // The length of the UTF-8 letter that begins at `at`, 0 if none does.
    function letterLength(data, at) {
        const first = data[at];
        const length = first < 0x80 ? 1 : first < 0xc2 ? 0 : first < 0xe0 ? 2 : first < 0xf0 ? 3 : first < 0xf5 ? 4 : 0;
        if (length < 2) return length;
        try {
            utf8.decode(data.subarray(at, at + length));
            return length;
        } catch (_) {
            return 0;
        }
    }

    // The pieces of `data` as they are shown: {text}, {mark} for a mark that is drawn, {byte} for one that no text can show.
    function pieces(data, hidden = HIDDEN) {
        const all = [];
        let begun = 0;
        const plain = (end) => end > begun && all.push({ text: utf8.decode(data.subarray(begun, end)) });
        for (let at = 0; at < data.length; ) {
            const length = letterLength(data, at);
            const shown = length > 0 && !hidden.has(data[at]);
            if (!shown) {
                plain(at);
                all.push(DRAWN[data[at]] ? { mark: DRAWN[data[at]], byte: data[at] } : { byte: data[at] });
                begun = at + 1;
            }
            at += shown ? length : 1;
        }
        plain(data.length);
        return all;
    }

    // A record as a text with its marks drawn.
    const drawn = (data) => pieces(data).map((piece) => piece.text || piece.mark || lone(piece.byte)).join('');

    // A text with no marks in it: a code, or with no bytes hidden a text of several lines.
    const plain = (data, hidden = HIDDEN_IN_CODES) => pieces(data, hidden).map((piece) => piece.text || lone(piece.byte)).join('');

    // The bytes of a text; `marks` says which letters stand for which bytes.
    function of(text, marks = {}) {
        const data = [];
        for (const letter of text) {
            const unit = letter.charCodeAt(0);
            if (letter in marks) data.push(marks[letter]);
            else if (letter.length === 1 && isLone(unit)) data.push(unit - LONE);
            else if (unit < 0x80) data.push(unit);
            else data.push(...encoder.encode(letter));
        }
        return Uint8Array.from(data);
    }

    // The bytes of a record that is typed with its marks drawn.
    const typed = (text) => of(text, { '^': ATTRIBUTE, ']': VALUE, '\\': SUBVALUE });

    function joined(parts, mark) {
        const data = new Uint8Array(parts.reduce((length, part) => length + part.length + 1, -1) + (parts.length ? 0 : 1));
        let at = 0;
        parts.forEach((part, i) => {
            if (i > 0) data[at++] = mark;
            data.set(part, at);
            at += part.length;
        });
        return data;
    }

    // The parts of `data` between the marks; an empty one has one part, which is empty.
    function cut(data, mark) {
        const parts = [];
        let begun = 0;
        for (let at = data.indexOf(mark); at >= 0; at = data.indexOf(mark, begun)) {
            parts.push(data.subarray(begun, at));
            begun = at + 1;
        }
        parts.push(data.subarray(begun));
        return parts;
    }

    // The elements of a part, one number an element in each list: where it begins and ends in the part, its value and its subvalue, from 1.
    function elements(part) {
        const all = { starts: [], ends: [], values: [], subvalues: [], length: 0 };
        for (let at = 0, start = 0, v = 1, s = 1; at <= part.length; at++) {
            if (at < part.length && part[at] !== VALUE && part[at] !== SUBVALUE) continue;
            all.starts.push(start);
            all.ends.push(at);
            all.values.push(v);
            all.subvalues.push(s);
            start = at + 1;
            if (part[at] === VALUE) [v, s] = [v + 1, 1];
            else s += 1;
        }
        all.length = all.starts.length;
        return all;
    }

    // An address as it is typed, null where it is none.
    function address(text) {
        const words = ADDRESS.exec(text);
        return words && { a: Number(words[1]), v: Number(words[2]), s: Number(words[3]) };
    }

    const same = (one, other) => one.length === other.length && one.every((byte, i) => byte === other[i]);

    return { ATTRIBUTE, VALUE, SUBVALUE, pieces, drawn, plain, of, typed, joined, cut, elements, address, same, isLone };
})();
