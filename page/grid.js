'use strict';
// The record as a grid: a column for each attribute, a row for each position, so that what F loads together stands in one row.
const grid = (() => {
    const { make } = drawing;
    // Columns that are drawn at a time; a record has a few attributes, and may have 32,768.
    const COLUMNS = 24;
    const SHOWN = 80;
    const PAGE = 10;

    // The rows: for each value as many as the most subvalues that an attribute has there; and one more, where the next value can be typed.
    function positionsOf(attributes) {
        const deepest = [1];
        for (const { elements } of attributes.slice(1)) {
            for (let i = 0; i < elements.length; i++) {
                const v = elements.values[i] - 1;
                deepest[v] = Math.max(deepest[v] || 1, elements.subvalues[i]);
            }
        }
        const positions = [];
        deepest.concat([1]).forEach((most, v) => {
            for (let s = 1; s <= most; s++) positions.push({ v: v + 1, s, alone: most === 1 });
        });
        return positions;
    }

    // The number of the element at a position, by halves; the lists are in order.
    function indexOf({ values, subvalues, length }, { v, s }) {
        let [low, high] = [0, length];
        while (low < high) {
            const half = (low + high) >> 1;
            if (values[half] < v || (values[half] === v && subvalues[half] < s)) low = half + 1;
            else high = half;
        }
        return low < length && values[low] === v && subvalues[low] === s ? low : -1;
    }

    const addressOf = (a, v, s) => words.address({ a, v, s });

    class Grid {
        // `parts` are the head's row, and what is shown where there are more columns. `told.pick(address)` hears what was picked; `told.replace(at, text)`
        // a new element, and says whether it was taken; `told.left()` that none will be.
        constructor(box, parts, told) {
            Object.assign(this, parts, { box, told, record: null, address: null, bad: null, first: 1, editing: null });
            // where the keys are: an attribute, and a row, -1 for the head
            [this.column, this.row] = [1, 0];
            this.list = rows.create(box, (index) => this.drawRow(index), () => this.row);
            this.takeIn(new Uint8Array(0));
            box.addEventListener('keydown', (event) => this.onKey(event));
            box.addEventListener('mousedown', (event) => this.onPress(event));
            // a click that no button made, as tools for the blind do
            box.addEventListener('click', (event) => event.detail === 0 && this.onPress(event));
            this.earlier.addEventListener('click', () => this.turn(-COLUMNS));
            this.later.addEventListener('click', () => this.turn(COLUMNS));
        }

        // Other columns, and the keys with them.
        turn(columns) {
            this.first = Math.max(1, Math.min(this.first + columns, this.attributes.length - 1));
            this.column = this.first;
            this.draw();
        }

        takeIn(record) {
            // keys elsewhere leave the record as it is
            if (record === this.record) return;
            this.record = record;
            this.attributes = bytes.cut(record, bytes.ATTRIBUTE).map((part) => ({ part, elements: bytes.elements(part) }));
            this.positions = positionsOf(this.attributes);
        }

        // The element of attribute a in a row, null where there is none; the id stands in the first row.
        element(a, index) {
            const attribute = this.attributes[a];
            if (!attribute || (a === 0 && index > 0)) return null;
            if (a === 0) return attribute.part;
            const at = indexOf(attribute.elements, this.positions[index]);
            return at < 0 ? null : attribute.part.subarray(attribute.elements.starts[at], attribute.elements.ends[at]);
        }

        isSingle(a, index) {
            const { v, s, alone } = this.positions[index];
            const attribute = this.attributes[a];
            return alone || (s === 1 && (!attribute || indexOf(attribute.elements, { v, s: 2 }) < 0));
        }

        isPicked(a, index) {
            const { v, s } = this.positions[index];
            const at = this.address;
            return at !== null && at.a === a && (at.v === 0 || at.v === v) && (at.s === 0 || at.s === s);
        }

        // Whether this is the very place that is picked and is missing.
        isMissed(a, index) {
            const { v, s } = this.positions[index];
            const at = this.address;
            return at !== null && at.a === a && (at.v || 1) === v && (at.s || 1) === s;
        }

        // Whether this is the element that the run was refused at; an address may leave out what is 1.
        isBad(a, index) {
            const { v, s } = this.positions[index];
            return this.bad !== null && this.bad.a === a && (this.bad.v || 1) === v && (this.bad.s || 1) === s;
        }

        // The id, then attributes from `first` on, and the one behind the last, which can be typed.
        columns() {
            const count = Math.min(COLUMNS, this.attributes.length - this.first + 1);
            return [0].concat(Array.from({ length: count }, (_, i) => this.first + i));
        }

        isNext(a) {
            return a > 0 && a === this.attributes.length;
        }

        nameOf(a, index) {
            const { v, s, alone } = this.positions[index];
            return a === 0 ? 'id' : 'attribute ' + a + ', value ' + v + (alone ? '' : ', subvalue ' + s);
        }

        cell(a, index, role, name, kind, isSelected, ...children) {
            return make('div', {
                role,
                class: kind + (this.isNext(a) ? ' next' : ''),
                'data-a': a,
                'data-row': index,
                'aria-colindex': a + 2,
                'aria-label': name,
                'aria-selected': isSelected ? 'true' : 'false',
                tabindex: a === this.column && index === this.row ? 0 : -1,
            }, ...children);
        }

        drawCell(a, index) {
            const element = this.element(a, index);
            if (element === null) return this.cell(a, index, 'gridcell', this.nameOf(a, index) + ': nothing there', 'cell missing', this.isMissed(a, index));
            const name = this.nameOf(a, index) + ': ' + (element.length ? bytes.drawn(element.subarray(0, SHOWN)) : 'empty');
            const kind = this.isBad(a, index) ? 'cell bad' : 'cell';
            return this.cell(a, index, 'gridcell', name, kind, this.isPicked(a, index), ...drawing.data(element, SHOWN));
        }

        drawRow(index) {
            const { v, s, alone } = this.positions[index];
            const isNew = index === this.positions.length - 1;
            return make('div', { role: 'row', class: 'grid-row' + (isNew ? ' next' : ''), 'aria-rowindex': index + 2 },
                make('div', { role: 'rowheader', class: 'row-number', text: isNew ? v + ' +' : alone ? v : v + '.' + s }),
                ...this.columns().map((a) => this.drawCell(a, index)));
        }

        drawHeadCell(a) {
            const name = a === 0 ? 'id' : 'attribute ' + a + (this.isNext(a) ? ', which is not there yet' : '');
            const isSelected = this.address !== null && this.address.a === a && this.address.v === 0;
            return this.cell(a, -1, 'columnheader', name, 'head-cell', isSelected, a === 0 ? 'id' : this.isNext(a) ? a + ' +' : String(a));
        }

        draw() {
            const count = this.attributes.length;
            this.editing = null;
            this.column = Math.min(this.column, count);
            this.row = Math.min(this.row, this.positions.length - 1);
            if (this.column > 0 && (this.column < this.first || this.column >= this.first + COLUMNS)) this.first = Math.max(1, this.column - COLUMNS + 1);
            drawing.fill(this.head, make('div', { role: 'columnheader', class: 'row-number', text: 'value' }),
                ...this.columns().map((a) => this.drawHeadCell(a)));
            this.box.style.setProperty('--columns', this.columns().length);
            this.box.setAttribute('aria-rowcount', this.positions.length + 1);
            this.box.setAttribute('aria-colcount', count + 2);
            this.drawMore(count);
            this.list.show(this.positions.length);
        }

        drawMore(count) {
            const last = Math.min(count - 1, this.first + COLUMNS - 1);
            this.more.hidden = count <= COLUMNS;
            this.earlier.disabled = this.first === 1;
            this.later.disabled = last === count - 1;
            this.range.textContent = 'attributes ' + this.first + ' to ' + last + ' of ' + words.number(count - 1);
        }

        // `bad` is the place of the element that was refused, or null.
        show(record, address, bad) {
            const isElsewhere = !this.box.contains(document.activeElement);
            const isNew = JSON.stringify([address, bad]) !== JSON.stringify([this.address, this.bad]);
            Object.assign(this, { address, bad });
            this.takeIn(record);
            // the keys begin at what is picked, wherever it was picked
            if (address !== null && isElsewhere) [this.column, this.row] = [address.a, this.rowOf(address)];
            this.draw();
            if (isNew && isElsewhere && address !== null) this.list.reveal(this.rowOf(bad || address));
        }

        rowOf({ v, s }) {
            return Math.max(0, this.positions.findIndex((position) => position.v === (v || 1) && position.s === (s || 1)));
        }

        // Picks a cell: its value or its subvalue; picked again, what is wider by one.
        pick(a, index) {
            [this.column, this.row] = [a, index];
            if (a === 0) return this.told.pick('0,0,0');
            if (index < 0) return this.told.pick(addressOf(a, 0, 0));
            const { v, s } = this.positions[index];
            const choices = (this.isSingle(a, index) ? [] : [addressOf(a, v, s)]).concat([addressOf(a, v, 0), addressOf(a, 0, 0)]);
            const now = this.address === null ? '' : words.address(this.address);
            this.told.pick(choices[(choices.indexOf(now) + 1) % choices.length]);
        }

        node() {
            return this.box.querySelector('[data-a="' + this.column + '"][data-row="' + this.row + '"]');
        }

        focus() {
            const node = this.node();
            if (node && !node.querySelector('input')) node.focus();
        }

        go(a, index) {
            this.column = Math.max(0, Math.min(a, this.attributes.length));
            this.row = Math.max(-1, Math.min(index, this.positions.length - 1));
            this.draw();
            if (this.row >= 0) this.list.reveal(this.row);
            this.focus();
        }

        // Lets a cell be typed over: Enter and going elsewhere take it, Escape leaves the cell as it was.
        edit(a, index, text) {
            // the id stands in the first row alone
            if (index < 0 || (a === 0 && index > 0)) return;
            this.told.left();
            this.go(a, index);
            const old = bytes.drawn(this.element(a, index) || new Uint8Array(0));
            const input = make('input', { 'aria-label': 'New text of ' + this.nameOf(a, index), spellcheck: 'false', autocomplete: 'off' });
            input.value = text === null ? old : text;
            input.addEventListener('keydown', (event) => this.onEditKey(event, input));
            input.addEventListener('blur', () => this.leave(input, old));
            drawing.fill(this.node(), input);
            this.editing = input;
            input.focus();
        }

        // The new text of the cell that the keys are at; whether it was taken.
        replace(text) {
            const { v, s } = this.positions[this.row];
            return this.told.replace(this.column === 0 ? { a: 0, v: 0, s: 0 } : { a: this.column, v, s }, text);
        }

        leave(input, old) {
            // some browsers tell of it too when the input is taken away by drawing
            if (this.editing !== input) return;
            if (input.value === old || !this.replace(input.value)) this.draw();
        }

        onEditKey(event, input) {
            event.stopPropagation();
            const [a, index] = [this.column, this.row];
            if (event.key === 'Escape') {
                event.preventDefault();
                this.told.left();
                this.go(a, index);
            } else if (event.key === 'Enter') {
                event.preventDefault();
                if (this.replace(input.value)) this.go(a, index + 1);
            }
        }

        // What a key does here, null where it does nothing.
        meaning(key) {
            const [a, index] = [this.column, this.row];
            switch (key) {
                case 'ArrowLeft': return () => this.go(a - 1, index);
                case 'ArrowRight': return () => this.go(a + 1, index);
                case 'ArrowUp': return () => this.go(a, index - 1);
                case 'ArrowDown': return () => this.go(a, index + 1);
                case 'PageUp': return () => this.go(a, index - PAGE);
                case 'PageDown': return () => this.go(a, index + PAGE);
                case 'Home': return () => this.go(0, index);
                case 'End': return () => this.go(this.attributes.length - 1, index);
                case 'Enter': return () => this.pick(a, index);
                case ' ': return () => this.pick(a, index);
                case 'F2': return () => this.edit(a, index, null);
                case 'Delete': return () => this.edit(a, index, '');
                default: return Array.from(key).length === 1 ? () => this.edit(a, index, key) : null;
            }
        }

        onKey(event) {
            // some keyboards have ] and \ behind the key AltGr, which counts as Ctrl and Alt
            const isOther = (event.ctrlKey || event.altKey || event.metaKey) && !event.getModifierState('AltGraph');
            const does = isOther ? null : this.meaning(event.key);
            if (does === null) return;
            event.preventDefault();
            does();
            this.focus();
        }

        // Pressing, and not the click behind it: taking what was typed elsewhere, or the first of two clicks, draws the cell anew, and no click would come.
        onPress(event) {
            const node = event.target.closest('[data-a]');
            if (!node || event.button !== 0 || event.target.closest('input')) return;
            event.preventDefault();
            const [a, index] = [Number(node.dataset.a), Number(node.dataset.row)];
            if (this.editing) this.editing.blur();
            else node.focus();
            if (event.detail === 2) return this.edit(a, index, null);
            this.pick(a, Math.min(index, this.positions.length - 1));
            this.focus();
        }
    }

    return { Grid };
})();
