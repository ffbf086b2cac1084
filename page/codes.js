'use strict';
// The codes, one on a line, each with what stands after it.
const codes = (() => {
    const { make, fill } = drawing;
    const SHOWN = 240;

    class Line {
        constructor(list, text) {
            this.list = list;
            this.input = make('input', { class: 'code', type: 'text', spellcheck: 'false', autocomplete: 'off', autocapitalize: 'off', autocorrect: 'off' });
            this.input.value = text;
            this.number = make('span', { class: 'line-number', 'aria-hidden': 'true' });
            this.about = make('button', { type: 'button', class: 'small', text: '?' });
            this.remove = make('button', { type: 'button', class: 'small', text: '×' });
            this.after = make('div', { class: 'after' });
            this.date = this.makeDate();
            this.node = make('li', { class: 'line' }, this.number, this.input, this.about, this.remove, this.after, this.date.node);
            this.input.addEventListener('input', () => list.told.changed());
            this.input.addEventListener('keydown', (event) => list.onKey(event, this));
            this.input.addEventListener('paste', (event) => list.onPaste(event, this));
            this.about.addEventListener('click', () => list.told.explain(this.input.value));
            this.remove.addEventListener('click', () => list.drop(this));
        }

        // The other way of a D code: a date that is typed, and its day.
        makeDate() {
            const input = make('input', { type: 'text', spellcheck: 'false', autocomplete: 'off' });
            const day = make('output', {});
            const label = make('span', { text: 'Type a date for this code: ' });
            const node = make('div', { class: 'date', hidden: true }, make('label', {}, label, input), day);
            input.addEventListener('input', () => this.showDay());
            return { node, input, day };
        }

        showDay() {
            const text = this.date.input.value;
            if (text === '') return fill(this.date.day);
            const told = sundewfrill.typedDate(bytes.of(this.input.value), bytes.of(text));
            if (told.refusal === 0) return fill(this.date.day, 'is day ' + told.day);
            fill(this.date.day, make('div', { class: 'refusal' }, ...drawing.refusal(told.refusal)));
        }

        name(number) {
            this.number.textContent = number;
            this.after.id = 'after-' + number;
            this.input.setAttribute('aria-label', 'Code ' + number);
            this.input.setAttribute('aria-describedby', this.after.id);
            this.about.setAttribute('aria-label', 'About code ' + number + ' in the reference');
            this.remove.setAttribute('aria-label', 'Remove code ' + number);
            this.date.input.setAttribute('aria-label', 'Date typed for code ' + number);
        }

        // What is known of a refusal that this line causes: the elm, the entries, or the element and what the line was given.
        known(shown) {
            if (shown.bad) return this.knownOfElm(shown.bad).concat(this.knownOfEntries(shown.bad), this.knownAsMeant(shown.bad));
            const { given } = shown.culprit;
            const which = words.refusedAt(shown) + '. This code was given ';
            const size = ', ' + words.counted(given.length, 'byte') + '.';
            const element = [which, make('code', {}, ...drawing.value(given, SHOWN)), size];
            return shown.refusal === 15 ? [element, [this.enough(shown)]] : [element];
        }

        // The budget that is always enough, where the page takes it.
        enough({ ceiling }) {
            const most = words.number(ceiling);
            if (ceiling <= links.MOST_BUDGET) return 'A budget of ' + most + ', which is the ceiling, is always enough here.';
            return 'The ceiling is ' + most + ', and the page takes no budget over ' + words.number(links.MOST_BUDGET) + '.';
        }

        knownOfElm({ line, elm }) {
            if (elm === null) return [];
            const bad = line.text.slice(elm.from, elm.to);
            const what = bad === '' ? 'An elm is missing here: ' : 'It goes wrong here: ';
            return [[what, make('code', {}, line.text.slice(0, elm.from), make('mark', { text: bad || '␣' }), line.text.slice(elm.to))]];
        }

        knownOfEntries({ entries }) {
            return entries === null ? [] : [[entries + ' entries are left at the end: ' + (entries - 1) + ' too many.']];
        }

        // What was probably meant, or else the form of such a code.
        knownAsMeant({ line, refusal, meant, several }) {
            if (refusal !== 6) return [];
            if (line.text.trim() === '') return [['The line holds blanks alone.']];
            if (meant) return [['Did you mean ', make('code', { text: meant.code }), meant.refusal ? '? It is then refused with ' + meant.refusal + '.' : '?']];
            if (several) return [['Several codes stand on several lines: ', ...several.map((code) => make('code', { class: 'one', text: code }))]];
            const section = reference.sectionOf(line.text);
            return section && !line.formula ? [[...reference.form(section), ' ', make('a', { href: '#' + section, text: 'More in the reference' })]] : [];
        }

        // `line` is what the run says of it, `shown` the whole run.
        show(line, shown) {
            const isBad = (shown.bad && shown.bad.line === line) || (shown.culprit && shown.culprit.line === line);
            this.node.classList.toggle('bad', Boolean(isBad));
            this.input.setAttribute('aria-invalid', isBad ? 'true' : 'false');
            this.date.node.hidden = !line.isDate;
            if (line.isDate) this.showDay();
            const formula = line.formula && line.formula.refusal === 0
                ? [make('p', { class: 'formula' }, 'stands for ', make('code', { text: bytes.plain(line.code) }))] : [];
            const behind = isBad ? [make('div', { class: 'refusal' }, ...drawing.refusal(shown.refusal, this.known(shown)))] : this.result(line, shown);
            fill(this.after, ...formula, ...behind);
        }

        result(line, { coded, culprit }) {
            if (line.blank || !line.after) return [];
            const { refusal, answer, steps } = line.after;
            // behind the line that was refused nothing came of any
            const isBehind = culprit !== null && coded.indexOf(line) > coded.indexOf(culprit.line);
            if (refusal !== 0) return isBehind ? [] : [make('p', { class: 'help', text: 'Refusal ' + refusal + ', were it the last code.' })];
            return [make('p', { class: 'stands' }, make('span', { class: 'arrow', text: '→ ' }),
                make('code', { class: 'value' }, ...drawing.value(answer, SHOWN)), ' ', make('span', { class: 'steps', text: words.counted(steps, 'step') }))];
        }
    }

    class Lines {
        // `told.changed()` hears of every change, `told.explain(code)` is asked for the reference.
        constructor(box, told) {
            Object.assign(this, { box, told, lines: [] });
        }

        texts() {
            return this.lines.map((line) => line.input.value);
        }

        set(texts) {
            this.lines = (texts.length ? texts : ['']).map((text) => new Line(this, text));
            this.place();
        }

        place() {
            fill(this.box, ...this.lines.map((line) => line.node));
            this.lines.forEach((line, i) => line.name(i + 1));
        }

        focus(index) {
            const line = this.lines[Math.max(0, Math.min(index, this.lines.length - 1))];
            line.input.focus();
        }

        insert(index, texts) {
            this.lines.splice(index, 0, ...texts.map((text) => new Line(this, text)));
            this.place();
            this.told.changed();
            this.focus(index + texts.length - 1);
        }

        drop(line) {
            const index = this.lines.indexOf(line);
            this.lines.splice(index, 1);
            if (this.lines.length === 0) this.lines = [new Line(this, '')];
            this.place();
            this.told.changed();
            this.focus(Math.max(0, index - 1));
        }

        onKey(event, line) {
            const index = this.lines.indexOf(line);
            if (event.isComposing) return;
            if (event.key === 'Enter') this.insert(index + 1, ['']);
            else if (event.key === 'Backspace' && line.input.value === '' && this.lines.length > 1) this.drop(line);
            else if (event.key === 'ArrowUp') this.focus(index - 1);
            else if (event.key === 'ArrowDown') this.focus(index + 1);
            else return;
            event.preventDefault();
        }

        // Several lines at once become several codes.
        onPaste(event, line) {
            const texts = event.clipboardData.getData('text').split(/\r?\n/).filter((text) => text !== '');
            if (texts.length < 2) return;
            event.preventDefault();
            const isEmpty = line.input.value === '';
            const index = this.lines.indexOf(line);
            if (isEmpty) this.lines.splice(index, 1);
            this.insert(isEmpty ? index : index + 1, texts);
        }

        show(shown) {
            this.lines.forEach((line, i) => line.show(shown.lines[i], shown));
        }
    }

    return { Lines };
})();
