'use strict';
// The two documents as the page shows them, built node by node: nothing in their texts can be taken for HTML.
const reference = (() => {
    // The page itself has h1 and h2, so # of a document is an h3.
    const BELOW = 2;
    const CODES_PART = 'The codes';
    const ELMS_PART = 'The elms of F';
    const ALGEBRA_PART = 'The A code';
    const LIST = { id: 'ref-list-of-refusals', title: 'The list of refusals', level: 1 + BELOW };
    const OVERVIEW_ID = 'ref-the-codes';
    // Where the documents stand in the page: the names of their files say nothing there.
    const HOMES = new Map([['REFUSALS.md', ['list of refusals', LIST.id]], ['docs/CODES.md', ['reference', OVERVIEW_ID]]]);
    // Letters of codes that are in none of the headings: "Of SMA:301 these are left out", and an M that goes no further.
    const OVERVIEW = /^[MCRS]/;

    // A code span, bold text, a link, and the other document's name.
    const SPAN = /`([^`]*)`|\*\*(.+?)\*\*|\[([^\]]+)\]\(([^)]+)\)|docs\/CODES\.md/g;
    const KINDS = [['head', /^#{1,4} /], ['block', /^ {4}/], ['table', /^\|/], ['list', /^- /]];
    // One piece of a word at the console: in single quotes, in double quotes, or plain.
    const PIECE = /^(?:'([^']*)'|"((?:[^"\\$`!]|\\[$"\\`])*)"|([A-Za-z0-9^.,:/_+-]+))/;
    const EXAMPLE_HEADS = 'record,code,prints';

    // What each section that is drawn is searched by: its text, and the name of its code or elm.
    const texts = new WeakMap();
    const names = new WeakMap();
    let parsed = null;

    const element = (name, given, children) => drawing.make(name, given, ...children);

    const unmarked = (text) => text.replace(/`|\*\*/g, '');
    const codeSpans = (text) => (text.match(/`[^`]*`/g) || []).map((span) => span.slice(1, -1));

    // The part that a line belongs to by its first bytes.
    const kindOf = (line) => (KINDS.find(([, form]) => form.test(line)) || ['text'])[0];

    // The cells of a table's row; a bar in a code span parts none.
    const cellsOf = (row) => row.trim().slice(1, -1).match(/(?:`[^`]*`|[^`|])+/g).map((cell) => cell.trim());

    // The blocks of a text: each has its kind and its lines. Text goes on until a blank line or a line of another kind.
    function blocksOf(text) {
        const blocks = [];
        let open = null;
        for (const line of text.split('\n')) {
            const kind = line.trim() === '' ? null : kindOf(line);
            const goesOn = open && (kind === open.kind || (kind === 'text' && open.kind === 'list'));
            if (kind && kind !== 'head' && goesOn) {
                open.lines.push(line);
            } else {
                open = kind && { kind, lines: [line] };
                if (open) blocks.push(open);
            }
        }
        return blocks;
    }

    function idOf(title, taken) {
        const slug = 'ref-' + title.toLowerCase().replace(/[^a-z0-9]+/g, '-').replace(/^-|-$/g, '');
        return taken.has(slug) ? slug + '-' + (taken.size + 1) : slug;
    }

    // A text as its sections: heading, id, level, the part that it stands in, and the blocks up to the next heading.
    function sectionsOf(text) {
        const sections = [];
        const taken = new Set();
        let part = '';
        for (const block of blocksOf(text)) {
            if (block.kind !== 'head') {
                sections[sections.length - 1].blocks.push(block);
                continue;
            }
            const [, marks, heading] = /^(#+) (.*)$/.exec(block.lines[0]);
            const title = unmarked(heading);
            if (marks.length === 2) part = title;
            const id = idOf(title, taken);
            taken.add(id);
            sections.push({ heading, title, id, level: marks.length + BELOW, part, name: codeSpans(heading)[0] || '', blocks: [] });
        }
        return sections;
    }

    function sections() {
        parsed = parsed || sectionsOf(CODES);
        return parsed;
    }

    // A link to one of the documents; `first` where a sentence begins with it. A link to anything else is its text alone.
    function linkTo(target, text, first) {
        if (!HOMES.has(target)) return text;
        const [name, id] = HOMES.get(target);
        return element('a', { href: '#' + id }, [(first ? 'The ' : 'the ') + name]);
    }

    // The nodes of a text with code spans, bold and links.
    function inline(text) {
        const nodes = [];
        let begun = 0;
        for (const found of text.matchAll(SPAN)) {
            if (found.index > begun) nodes.push(text.slice(begun, found.index));
            if (found[1] !== undefined) nodes.push(element('code', {}, [found[1]]));
            else if (found[2] !== undefined) nodes.push(element('strong', {}, inline(found[2])));
            else nodes.push(linkTo(found[4] || found[0], found[3], found.index === 0));
            begun = found.index + found[0].length;
        }
        if (begun < text.length) nodes.push(text.slice(begun));
        return nodes;
    }

    const codesText = (example) => example.codes.join(' then ') || 'no code';

    // A link that puts an example into the page: what it shows, and its name, which says on what record.
    function tryLink(example, shown, name) {
        const href = links.write({ record: bytes.typed(example.record), at: example.at, codes: example.codes });
        return element('a', { class: 'try', href, 'aria-label': name + ' on ' + example.record }, [shown]);
    }

    function exampleCells(cells) {
        const [record, code] = cells;
        const example = { record: codeSpans(record)[0], at: '1,0,0', codes: codeSpans(code) };
        const link = tryLink(example, 'try', 'try ' + codesText(example));
        return cells.map((cell, i) => element('td', {}, i === 0 ? [...inline(cell), ' ', link] : inline(cell)));
    }

    const plainCells = (cells) => cells.map((cell) => element('td', {}, inline(cell)));

    // A row of the list of refusals: links go to it by its number.
    const refusalCells = ([number, ...others]) => [element('th', { scope: 'row' }, [number]), ...plainCells(others)];

    // A table that scrolls by itself; one without links in it needs a place for the keyboard to scroll it from.
    function table(lines, rowOf, given) {
        const [heads, , ...rows] = lines.map(cellsOf);
        const head = element('tr', {}, heads.map((cell) => element('th', { scope: 'col' }, inline(cell))));
        const body = rows.map((cells) => element('tr', given(cells), rowOf(cells)));
        const made = element('table', {}, [element('thead', {}, [head]), element('tbody', {}, body)]);
        const scrolled = rowOf === exampleCells ? {} : { tabindex: '0', role: 'group', 'aria-label': 'table: ' + heads.map(unmarked).join(', ') };
        return element('div', Object.assign({ class: 'scrolls' }, scrolled), [made]);
    }

    function codesTable(lines) {
        return table(lines, cellsOf(lines[0]).join() === EXAMPLE_HEADS ? exampleCells : plainCells, () => ({}));
    }

    // An item goes on in the lines that do not begin with a dash.
    function list(lines) {
        const items = [];
        for (const line of lines) {
            if (/^- /.test(line)) items.push(line.slice(2));
            else items[items.length - 1] += ' ' + line.trim();
        }
        return element('ul', {}, items.map((item) => element('li', {}, inline(item))));
    }

    // One word at the console, with its quotes undone as a shell does, and its length as it was written; null where it has anything else.
    function wordAt(line) {
        let text = '';
        let at = 0;
        while (at < line.length && line[at] !== ' ') {
            const piece = PIECE.exec(line.slice(at));
            if (!piece) return null;
            text += [piece[1], piece[2] && piece[2].replace(/\\(.)/g, '$1'), piece[3]].find((one) => one !== undefined) || '';
            at += piece[0].length;
        }
        return { text, length: at };
    }

    function wordsOf(line) {
        const words = [];
        for (let rest = line.trim(); rest !== ''; ) {
            const word = wordAt(rest);
            if (!word) return null;
            words.push(word.text);
            rest = rest.slice(word.length).trim();
        }
        return words;
    }

    // The run that a line of a transcript shows; null where it is none, or another form of the console.
    function exampleOf(line) {
        const typed = /^\$ \.\/console (.*)$/.exec(line);
        const words = typed && wordsOf(typed[1]);
        if (!words || words.length < 2 || !bytes.address(words[0])) return null;
        return { at: words[0], record: words[1], codes: words.slice(2) };
    }

    function transcript(lines) {
        const shown = lines.map((line) => line.slice(4));
        const block = element('pre', {}, [element('code', {}, [shown.join('\n')])]);
        const tries = shown.map(exampleOf).filter(Boolean).map((example) => {
            const words = 'try ' + codesText(example) + ' at ' + example.at;
            return tryLink(example, words, words);
        });
        return tries.length === 0 ? [block] : [block, element('ul', { class: 'tries' }, tries.map((link) => element('li', {}, [link])))];
    }

    function drawBlock({ kind, lines }) {
        if (kind === 'table') return [codesTable(lines)];
        if (kind === 'list') return [list(lines)];
        if (kind === 'block') return transcript(lines);
        return [element('p', {}, inline(lines.join(' ')))];
    }

    // A section with its heading, and what stands in it before its own sections, which is hidden by itself where it does not hold the words.
    function drawSection({ id, level, heading, name }, nodes, text) {
        const made = element('section', {}, [element('h' + level, { id, tabindex: '-1' }, inline(heading)), element('div', { class: 'body' }, nodes)]);
        names.set(made, name);
        texts.set(made, unmarked(heading + ' ' + text).toLowerCase());
        return made;
    }

    function drawCodes(box) {
        const open = [{ level: BELOW, made: box }];
        for (const section of sections()) {
            while (open[open.length - 1].level >= section.level) open.pop();
            const nodes = section.blocks.reduce((all, block) => all.concat(drawBlock(block)), []);
            const text = section.blocks.map((block) => block.lines.join(' ')).join(' ');
            const made = drawSection(section, nodes, text);
            open[open.length - 1].made.append(made);
            open.push({ level: section.level, made });
        }
    }

    function drawRefusals(box) {
        const { lines } = blocksOf(REFUSALS).find((block) => block.kind === 'table');
        const made = table(lines, refusalCells, ([number]) => ({ id: 'refusal-' + number }));
        box.append(drawSection(Object.assign({ heading: LIST.title }, LIST), [made], lines.join(' ')));
    }

    function draw(box) {
        const drawn = document.createDocumentFragment();
        drawCodes(drawn);
        drawRefusals(drawn);
        box.textContent = '';
        box.append(drawn);
    }

    const named = (part, fits) => sections().filter((section) => section.part === part && fits(section)).map((section) => section.id)[0] || null;

    // The heading that explains a code as it is typed, finished or not; null where none does.
    function sectionOf(code) {
        const typed = code.toUpperCase().replace(/^[\s('"]+/, '').replace(/\\/g, '/');
        const whole = (section) => section.name === '';
        if (typed.startsWith('A')) return named(ALGEBRA_PART, whole);
        if (typed.startsWith('LPV')) return named(ELMS_PART, ({ name }) => name === 'LPV');
        const found = named(CODES_PART, ({ name }) => name !== '' && typed.startsWith(name));
        return found || (OVERVIEW.test(typed) ? named(CODES_PART, whole) : null);
    }

    // How a code is written: the first point of its section, where it has one.
    function form(id) {
        const { blocks } = sections().find((section) => section.id === id);
        const points = blocks.find(({ kind }) => kind === 'list');
        return points ? Array.from(list(points.lines).firstChild.childNodes) : [];
    }

    // The codes with a section of their own, and the A code.
    const codes = () => sections().filter(({ part, name }) => part === CODES_PART && name !== '').map(({ name, id }) => ({ name, id }))
        .concat([{ name: 'A', id: named(ALGEBRA_PART, ({ name }) => name === '') }, { name: 'refusals', id: LIST.id }]);

    // The name of a code or an elm, as headings have it: any attribute is n.
    const nameIn = (words) => words.trim().toUpperCase().replace(/^[0-9]+(?=R*$)/, 'n');

    // Hides what does not hold all the words, in capitals or not; the name of a code or an elm is looked for in headings alone. A section is shown for
    // the sake of those inside it. Gives how many hold them.
    function filter(box, words) {
        const wanted = words.toLowerCase().split(/\s+/).filter(Boolean);
        const name = nameIn(words);
        const isName = sections().some((section) => section.name === name && name !== '');
        const holds = (section) => (isName ? names.get(section) === name : wanted.every((word) => texts.get(section).includes(word)));
        let holding = 0;
        // those inside a section come behind it, and so before it from the end
        Array.from(box.querySelectorAll('section')).reverse().forEach((section) => {
            const children = Array.from(section.children);
            children.filter((child) => child.className === 'body').forEach((body) => { body.hidden = !holds(section); });
            section.hidden = !holds(section) && !children.some((child) => child.tagName === 'SECTION' && !child.hidden);
            if (holds(section)) holding++;
        });
        return holding;
    }

    return { OVERVIEW_ID, draw, inline, sectionOf, form, codes, filter };
})();
