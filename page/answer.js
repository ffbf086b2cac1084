'use strict';
// The answer: its bytes, its steps beside ceiling and budget, and what became of each element.
const answer = (() => {
    const { make, fill } = drawing;
    const SHOWN = 2000;
    const CELL_SHOWN = 60;

    // Where a number of steps stands on the bar: each power of ten has the same width and a stroke, so that 345 and 1,000,000 are both seen.
    const share = (steps, most) => (steps <= 0 ? 0 : Math.min(100, (100 * Math.log10(steps + 1)) / Math.log10(most + 1)));

    function stepsText({ refusal, steps, ceiling, budget }) {
        const done = words.counted(steps, 'step');
        if (!runs.ran(refusal)) return 'Nothing ran: 0 steps.';
        if (refusal === 0 && ceiling === 0) return 'No code, no step: the elements come back as they are.';
        const most = ' The ceiling, known before anything runs, is ' + words.number(ceiling) + '; the budget is ' + words.number(budget) + '.';
        return done + '.' + most + (ceiling <= budget ? ' So the budget can never stop this.' : '');
    }

    function drawMeter(box, shown) {
        const { steps, ceiling, budget } = shown;
        const most = Math.max(steps, ceiling, budget, 1);
        const tick = (name, value) => {
            const left = share(value, most);
            // near the left end its name has room on the right alone
            return make('div', { class: 'tick ' + name + (left < 30 ? ' left' : ''), style: 'left: ' + left + '%' },
                make('span', { text: name + ' ' + words.number(value) }));
        };
        const powers = Array.from({ length: Math.floor(Math.log10(most)) }, (_, i) => 10 ** (i + 1));
        fill(box, make('div', { class: 'bar' }, make('div', { class: 'done', style: 'width: ' + share(steps, most) + '%' }),
            ...powers.map((power) => make('div', { class: 'power', style: 'left: ' + share(power, most) + '%' }))),
            ...(ceiling > 0 ? [tick('ceiling', ceiling)] : []), tick('budget', budget));
    }

    // What is known of a refusal that no line caused.
    function known(shown, addressText) {
        const { record } = shown;
        const size = (data) => words.counted(data.length, 'byte');
        switch (shown.refusal) {
            case 1: return [['The record has ' + size(record) + '.']];
            case 2: return [['The first such byte is byte ' + words.number(record.findIndex((byte) => byte === 251 || byte === 255) + 1) + ' of the record.']];
            case 3: return [['The id has ' + size(bytes.cut(record, bytes.ATTRIBUTE)[0]) + '.']];
            case 4: return [reference.inline(words.badAddress(addressText))];
            case 5: return [['The codes have ' + size(shown.code) + ' together.']];
            default: return shown.culprit ? knownElement(shown) : [];
        }
    }

    const placeOf = ({ elements, culprit }) => words.address(elements.place(culprit.index));

    const knownElement = (shown) => {
        const { elements, culprit } = shown;
        return [[words.refusedAt(shown) + ', of ' + words.counted(elements.element(culprit.index).length, 'byte') + '.']];
    };

    class Answer {
        constructor(boxes) {
            Object.assign(this, boxes, { shown: null, refused: -1 });
            this.list = rows.create(this.table, (index) => this.drawRow(index));
        }

        show(shown, addressText) {
            const refused = shown.culprit ? shown.culprit.index : -1;
            const isNew = refused >= 0 && refused !== this.refused;
            Object.assign(this, { shown, refused });
            const isDone = shown.refusal === 0;
            this.box.classList.toggle('refused', !isDone);
            fill(this.value, ...(isDone ? this.drawValue(shown.answer) : this.drawRefusal(shown, addressText)));
            this.steps.textContent = stepsText(shown);
            drawMeter(this.meter, shown);
            this.showTable();
            if (isNew) this.list.reveal(refused);
        }

        drawValue(data) {
            return [make('p', { class: 'value' }, ...drawing.value(data, SHOWN))];
        }

        // A line that caused it has the whole of it at its place.
        drawRefusal(shown, addressText) {
            const line = shown.bad ? shown.bad.line : shown.culprit && shown.culprit.line;
            if (!line) return drawing.refusal(shown.refusal, known(shown, addressText));
            const number = shown.lines.indexOf(line) + 1;
            const where = 'Code ' + number + (shown.culprit ? ', on the element at ' + placeOf(shown) : '') + '. What to do stands there.';
            return drawing.refusal(shown.refusal).slice(0, 1).concat([make('p', { class: 'known', text: where })]);
        }

        showTable() {
            const { elements, coded, lines } = this.shown;
            const heads = ['element'].concat(coded.map((line) => lines.indexOf(line) + 1 + ': ' + line.text));
            this.table.parentNode.hidden = elements === null || !(runs.ran(this.shown.refusal) || this.shown.bad);
            if (this.table.parentNode.hidden) return;
            this.table.style.setProperty('--columns', heads.length);
            this.table.setAttribute('aria-rowcount', elements.length + 1);
            fill(this.head, make('div', { role: 'columnheader', class: 'row-number', text: 'place' }),
                ...heads.map((text) => make('div', { role: 'columnheader', class: 'head-cell', text })));
            const count = words.counted(elements.length, 'element') + '.';
            this.count.textContent = elements.missing ? 'The place is missing: it counts as one empty element.' : count;
            this.list.show(elements.length);
        }

        // What the lines make of an element; those behind the one that was refused had no turn.
        drawRow(index) {
            const { record, elements, coded, bad, budget, culprit } = this.shown;
            const hasTurn = !culprit || index <= culprit.index;
            const left = culprit && index === culprit.index ? culprit.left : budget;
            const run = bad ? coded.slice(0, coded.indexOf(bad.line)) : coded;
            const after = hasTurn ? runs.turns(record, elements, run, index, left) : [];
            return make('div', { role: 'row', class: 'grid-row', 'aria-rowindex': index + 2 },
                make('div', { role: 'rowheader', class: 'row-number', text: elements.label(index) }),
                this.drawCell({ refusal: 0, answer: elements.element(index) }),
                ...coded.map((_, i) => this.drawCell(after[i])));
        }

        drawCell(turn) {
            if (!turn) return make('div', { role: 'cell', class: 'cell missing' });
            if (turn.refusal !== 0) return make('div', { role: 'cell', class: 'cell refused', text: 'refusal ' + turn.refusal });
            return make('div', { role: 'cell', class: 'cell' }, ...drawing.data(turn.answer, CELL_SHOWN));
        }
    }

    return { Answer };
})();
