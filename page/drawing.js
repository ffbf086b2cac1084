'use strict';
// What the page draws with: nodes, bytes with their marks, refusals in words.
const drawing = (() => {
    // An element with its attributes; of these `text` is what it holds, and one that is null or false is left out.
    function make(tag, attributes = {}, ...children) {
        const node = document.createElement(tag);
        for (const [name, value] of Object.entries(attributes)) {
            if (name === 'text') node.textContent = value;
            // not as an attribute, which the page's own policy refuses
            else if (name === 'style') node.style.cssText = value;
            else if (value !== null && value !== false) node.setAttribute(name, value === true ? '' : value);
        }
        node.append(...children);
        return node;
    }

    function fill(node, ...children) {
        node.textContent = '';
        node.append(...children);
    }

    // A text with `code` in it, and nothing else.
    const spans = (all) => all.split('`').map((part, i) => (i % 2 === 0 ? part : make('code', { text: part })));

    // Letters that show nothing, or turn the direction of those round them.
    const PARTS = /( +|[\u00a0\u00ad\u200b-\u200f\u2028-\u202e\u2060-\u2069\ufeff])/;

    // Blanks can be counted: each has a dot behind it. What is not seen is named, and what is written from right to left turns nothing else.
    const text = (all) => all.split(PARTS).filter(Boolean).map((part) => {
        if (part[0] === ' ') return make('span', { class: 'blank', text: part });
        if (PARTS.test(part)) return make('span', { class: 'byte', text: 'U+' + ('000' + part.charCodeAt(0).toString(16).toUpperCase()).slice(-4) });
        return /[\u0590-\u08ff\ufb1d-\ufefc]/.test(part) ? make('bdi', { text: part }) : part;
    });

    // A mark is coloured; a plain byte that looks like one, and a byte that no text can show, stand in a frame.
    function piece({ text: letters, mark, byte }) {
        if (letters !== undefined) return text(letters);
        if (mark !== undefined) return [make('span', { class: 'mark mark-' + byte, text: mark })];
        if (byte >= 32 && byte < 127) return [make('span', { class: 'byte', title: 'a plain byte, no mark', text: String.fromCharCode(byte) })];
        return [make('span', { class: 'byte', title: 'byte ' + byte, text: (byte < 16 ? '0' : '') + byte.toString(16).toUpperCase() })];
    }

    // Bytes as they are shown, no more than `most` of them, and not cut within a letter.
    function data(all, most) {
        let end = Math.min(all.length, most);
        // a letter has four bytes at most
        for (let back = 0; back < 3 && end > 0 && end < all.length && (all[end] & 0xc0) === 0x80; back++) end--;
        const nodes = [].concat(...bytes.pieces(all.subarray(0, end)).map(piece));
        if (end < all.length) nodes.push(make('span', { class: 'more', text: ' … ' + words.number(all.length) + ' bytes in all' }));
        return nodes;
    }

    // The same of a whole answer, which may be empty.
    const value = (all, most) => (all.length ? data(all, most) : [make('span', { class: 'more', text: 'nothing: the empty text' })]);

    // What a refusal says to a learner: its number and when it is given, what is known of this one, what to do.
    function refusal(number, known = []) {
        const { when, advice } = words.sentences.get(number);
        return [
            make('p', { class: 'when' }, make('strong', { text: 'Refusal ' + number + ': ' }), ...reference.inline(when)),
            ...known.map((line) => make('p', { class: 'known' }, ...line)),
            make('p', { class: 'advice' }, ...reference.inline(advice)),
        ];
    }

    return { make, fill, spans, data, value, refusal };
})();
