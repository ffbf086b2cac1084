'use strict';
// The page: what stands in its fields, run at every change; nothing in it looks at a clock.
const page = (() => {
    const { make, fill } = drawing;
    const named = (id) => document.getElementById(id);
    const SAID = 200;
    const WIDE = '(min-width: 60em)';
    // The invoice of README's lesson.
    const FIRST = { record: bytes.typed('INV7^7500]1250\\300^4]2\\10^SMITH, jane^10000'), at: '1,0,0', codes: ['F;1;2;*', 'MR2,$'] };

    class Page {
        constructor() {
            this.record = new Uint8Array(0);
            this.budget = links.BUDGET;
            this.task = { title: '', task: '', wanted: null, record: this.record, at: '', budget: this.budget };
            this.exercise = -1;
            this.grid = new grid.Grid(named('grid'), {
                head: named('grid-head'), more: named('grid-more'), range: named('grid-range'), earlier: named('grid-earlier'), later: named('grid-later'),
            }, {
                pick: (address) => this.pick(address),
                replace: (at, text) => this.replace(at, text),
                left: () => { named('edit-refusal').hidden = true; },
            });
            this.lines = new codes.Lines(named('codes'), { changed: () => this.update(), explain: (code) => this.explain(code) });
            this.answer = new answer.Answer({
                box: named('answer'), value: named('answer-value'), meter: named('meter'), steps: named('steps'),
                table: named('elements-table'), head: named('elements-head'), count: named('elements-count'),
            });
            this.listen();
            this.listExercises();
            // on a small screen the ten exercises would stand before the page itself
            named('exercises').open = window.matchMedia(WIDE).matches;
        }

        listen() {
            const on = (id, event, does) => named(id).addEventListener(event, does);
            on('record', 'input', () => this.typeRecord());
            on('record', 'keydown', (event) => event.key === 'Enter' && event.preventDefault());
            on('address', 'input', () => this.update());
            on('budget', 'input', () => this.typeBudget());
            on('budget', 'change', () => { named('budget').value = words.number(this.budget); });
            on('restore', 'click', () => this.restore());
            on('add-code', 'click', () => this.lines.insert(this.lines.lines.length, ['']));
            on('open-reference', 'click', () => this.toggleReference(named('reference').hidden));
            on('close-reference', 'click', () => this.toggleReference(false));
            on('reference-words', 'input', () => this.lookFor(named('reference-words').value));
            on('open-link', 'click', () => this.toggleLink());
            on('link-copy', 'click', () => this.copyLink());
            ['link-name', 'link-task', 'link-codes'].forEach((id) => on(id, 'input', () => this.showLink()));
            window.addEventListener('hashchange', () => this.openLink());
            window.addEventListener('resize', () => this.holdHeight(false));
            document.addEventListener('click', (event) => this.follow(event));
            document.addEventListener('keydown', (event) => event.key === 'Escape' && !event.defaultPrevented && this.toggleReference(false));
        }

        // What stands on the page, as a link says it. An exercise keeps its own record, address and budget, since its verdict goes by them.
        state() {
            const here = { record: this.record, at: named('address').value, budget: this.budget };
            return Object.assign({}, this.task, this.task.wanted ? {} : here, { codes: this.lines.texts() });
        }

        // What a link says; without one, the lesson's invoice.
        openLink() {
            const said = window.location.hash === '' ? FIRST : links.read(window.location.hash);
            if (said === null) return;
            this.set(said);
            // the link that was followed may be gone from the page
            if (!named('task').hidden) named('task-title').focus();
            // there the reference stands over the page
            if (!window.matchMedia(WIDE).matches) this.toggleReference(false);
        }

        set({ record, at, codes: texts, budget = links.BUDGET, title = '', task = '', wanted = null }) {
            this.record = record;
            this.budget = budget;
            this.task = { title, task, wanted, record, at, budget };
            this.holdHeight(false);
            named('record').value = bytes.drawn(record);
            named('address').value = at;
            named('budget').value = words.number(budget);
            named('budget-words').textContent = '';
            named('budget').setAttribute('aria-invalid', 'false');
            named('edit-refusal').hidden = true;
            this.lines.set(texts);
            this.showTask();
            this.update();
        }

        // A record is one line; what looks like a mark is one.
        typeRecord() {
            const field = named('record');
            if (/[\r\n]/.test(field.value)) field.value = field.value.replace(/[\r\n]+/g, '');
            this.record = bytes.typed(field.value);
            named('edit-refusal').hidden = true;
            this.update();
        }

        typeBudget() {
            const digits = named('budget').value.replace(/[, ]/g, '');
            const isBudget = /^[0-9]+$/.test(digits) && Number(digits) <= links.MOST_BUDGET;
            const still = 'A budget is a whole number up to ' + words.number(links.MOST_BUDGET) + '; ' + words.number(this.budget) + ' still stands.';
            named('budget').setAttribute('aria-invalid', isBudget ? 'false' : 'true');
            named('budget-words').textContent = isBudget ? '' : still;
            if (isBudget) this.budget = Number(digits);
            this.update();
        }

        // Picking moves nothing under the mouse: what gets shorter leaves room until something else is opened.
        holdHeight(isHeld) {
            const main = document.querySelector('main');
            main.style.minHeight = isHeld ? main.offsetHeight + 'px' : '';
        }

        pick(address) {
            this.holdHeight(true);
            named('address').value = address;
            this.update();
        }

        // A new element by the grid; whether it was taken.
        replace(at, text) {
            const told = sundewfrill.replace(this.record, bytes.typed(text), at);
            named('edit-refusal').hidden = told.refusal === 0;
            if (told.refusal !== 0) {
                fill(named('edit-refusal'), ...drawing.refusal(told.refusal));
                return false;
            }
            this.record = told.answer;
            named('record').value = bytes.drawn(this.record);
            this.update();
            return true;
        }

        // An answer that is not that of what stands in the fields is worse than none.
        update() {
            try {
                this.run();
            } catch (reason) {
                fail(reason);
            }
        }

        run() {
            const address = named('address').value;
            const shown = runs.run(this.record, address, this.lines.texts(), this.budget);
            this.shown = shown;
            named('address').setAttribute('aria-invalid', shown.refusal === 4 ? 'true' : 'false');
            named('record').setAttribute('aria-invalid', shown.refusal >= 1 && shown.refusal <= 3 ? 'true' : 'false');
            named('address-words').textContent = shown.elements === null ? '' : this.placeText(shown);
            this.grid.show(this.record, shown.elements && shown.at, shown.culprit && shown.elements.place(shown.culprit.index));
            this.lines.show(shown);
            this.answer.show(shown, address);
            this.showVerdict();
            this.say();
            if (!named('link').hidden) this.showLink();
        }

        placeText({ at, elements }) {
            return words.place(at) + ': ' + (elements.missing ? 'missing' : words.counted(elements.length, 'element'));
        }

        // For who does not see the page: the answer or the refusal, when it has changed.
        say() {
            const { refusal, answer: data, steps } = this.shown;
            const text = refusal === 0
                ? 'Answer ' + (bytes.drawn(data.subarray(0, SAID)) || 'empty') + ', ' + words.counted(steps, 'step')
                : 'Refusal ' + refusal + ': ' + words.sentences.get(refusal).when.replace(/`/g, '');
            if (named('said').textContent !== text) named('said').textContent = text;
        }

        // The exercise as it was opened, and the codes as they stand.
        restore() {
            this.set(Object.assign({}, this.task, { codes: this.lines.texts() }));
            this.lines.focus(0);
        }

        linkOf({ record, at, codes: texts, title, task, answer: wanted }) {
            return links.write({ record: bytes.typed(record), at, codes: texts, title, task, wanted: bytes.typed(wanted) });
        }

        listExercises() {
            fill(named('exercise-list'), ...exercises.map((exercise, i) => {
                const chips = exercise.teaches.map((code) => make('span', { class: 'chip', text: code }));
                const name = make('span', { class: 'name', text: i + 1 + '. ' + exercise.title });
                return make('li', {}, make('a', { href: this.linkOf(exercise) }, name, ' ', ...chips));
            }));
        }

        // Which exercise of the list a link has opened, -1 for none; one that a teacher made of it is another.
        exerciseOpened() {
            const { title, task, wanted, record, at } = this.task;
            const link = links.write({ title, task, wanted, record, at, codes: [] });
            return exercises.findIndex((exercise) => this.linkOf(Object.assign({}, exercise, { codes: [] })) === link);
        }

        showTask() {
            const { title, task, wanted } = this.task;
            const number = this.exerciseOpened();
            this.exercise = number;
            named('task').hidden = !(title || task || wanted);
            // the list makes room for the task
            if (!named('task').hidden) named('exercises').open = false;
            const { teaches = [] } = exercises[number] || {};
            fill(named('task-codes'), ...teaches.map((code) => make('a', { class: 'chip', href: '#' + this.sectionNamed(code), text: code })));
            named('task-title').textContent = (number >= 0 ? number + 1 + '. ' : '') + (title || 'Exercise');
            document.title = (title ? title + ' - ' : '') + 'Practice: dictionary codes';
            fill(named('task-text'), ...drawing.spans(task));
            fill(named('wanted'), ...(wanted ? ['Wanted: ', make('code', { class: 'value' }, ...drawing.value(wanted, SAID))] : []));
            this.showExercise(number);
        }

        sectionNamed(code) {
            const { id } = reference.codes().find(({ name }) => name === code) || {};
            return id || reference.sectionOf(code);
        }

        // Of an exercise of the list, a solution and the way to the next one.
        showExercise(number) {
            const { solution = [] } = exercises[number] || {};
            const next = number >= 0 && exercises[number + 1];
            named('solution').open = false;
            named('solution').hidden = number < 0;
            fill(named('solution-codes'), ...solution.map((code) => make('p', {}, make('code', { text: code }))));
            fill(named('task-next'), ...(next ? [make('a', { href: this.linkOf(next), text: 'Next exercise' })] : []));
            Array.from(named('exercise-list').children).forEach((item, i) => {
                item.firstChild.setAttribute('aria-current', i === number ? 'true' : 'false');
            });
        }

        // The verdict looks at bytes alone, those of the answer and of what it was got from: it is the same everywhere.
        showVerdict() {
            const { wanted, record, at, budget } = this.task;
            named('restore-box').hidden = named('solved').hidden = true;
            if (!wanted) return fill(named('verdict'));
            const isOther = !this.isAt(at) || this.budget > budget || !bytes.same(this.record, record);
            const isSolved = !isOther && this.shown.refusal === 0 && bytes.same(this.shown.answer, wanted);
            const solved = 'Solved: this is the answer that is wanted, in ' + words.counted(this.shown.steps, 'step') + '.';
            const text = isSolved ? solved : isOther ? 'Record, address and budget are no longer those of the exercise.' : 'Not yet the answer that is wanted.';
            named('verdict').classList.toggle('solved', isSolved);
            if (named('verdict').textContent !== text) named('verdict').textContent = text;
            named('restore-box').hidden = !isOther;
            // the task may be out of sight where the codes are typed
            fill(named('solved'), ...(isSolved ? ['Solved. ', ...Array.from(named('task-next').childNodes, (node) => node.cloneNode(true))] : []));
            named('solved').hidden = !isSolved;
            if (isSolved && this.exercise >= 0) this.markSolved(named('exercise-list').children[this.exercise]);
        }

        // 01,0,0 is 1,0,0 too.
        isAt(text) {
            const [here, there] = [bytes.address(named('address').value), bytes.address(text)];
            return here && there ? words.address(here) === words.address(there) : named('address').value === text;
        }

        markSolved(item) {
            item.classList.add('solved');
            named('solved-count').textContent = named('exercise-list').querySelectorAll('.solved').length + ' of ' + exercises.length + ' solved';
        }

        toggleReference(isOpen) {
            if (isOpen && !named('reference-text').firstChild) this.drawReference();
            if (named('reference').hidden !== isOpen) return;
            if (isOpen) this.before = document.activeElement;
            named('reference').hidden = !isOpen;
            document.body.classList.toggle('with-reference', isOpen);
            named('open-reference').setAttribute('aria-expanded', String(isOpen));
            if (isOpen) named('reference-words').focus();
            else if (this.before && this.before.isConnected) this.before.focus();
        }

        drawReference() {
            reference.draw(named('reference-text'));
            fill(named('reference-codes'), ...reference.codes().map(({ name, id }) => make('a', { class: 'chip', href: '#' + id, text: name })));
        }

        explain(code) {
            this.openReferenceAt(reference.sectionOf(code) || reference.OVERVIEW_ID);
        }

        openReferenceAt(id) {
            this.toggleReference(true);
            named('reference-words').value = '';
            this.lookFor('');
            const heading = named(id) || named('reference-text');
            heading.focus();
            heading.scrollIntoView();
        }

        lookFor(text) {
            const found = reference.filter(named('reference-text'), text);
            named('reference-found').textContent = found === 0 ? 'Nothing holds these words.' : '';
        }

        // A link to a part of the reference opens it, also where the part is not drawn yet, and the one to the codes only goes there. Before any other
        // is followed, what stands here is kept where the browser's Back finds it.
        follow(event) {
            const link = event.target.closest('a[href^="#"]');
            if (!link || event.ctrlKey || event.metaKey || event.shiftKey) return;
            const target = link.getAttribute('href');
            const isWithin = target.startsWith('#ref') || target === '#codes-title';
            if (isWithin) event.preventDefault();
            if (target.startsWith('#ref')) this.openReferenceAt(target.slice(1));
            else if (isWithin) named('codes-title').focus();
            else window.history.replaceState(null, '', links.write(this.state()));
            if (target === window.location.hash) this.openLink();
        }

        toggleLink() {
            named('link').hidden = !named('link').hidden;
            named('open-link').setAttribute('aria-expanded', String(!named('link').hidden));
            named('link-copied').textContent = '';
            if (named('link').hidden) return;
            this.showLink();
            named('link-name').focus();
        }

        showLink() {
            const { refusal, answer: data } = this.shown;
            const said = {
                title: named('link-name').value,
                task: named('link-task').value,
                record: this.record,
                at: named('address').value,
                codes: named('link-codes').checked ? this.lines.texts().filter((text) => text !== '') : [],
                budget: this.budget,
                wanted: refusal === 0 ? data : null,
            };
            const isFile = window.location.protocol === 'file:';
            named('link-text').value = window.location.href.split('#')[0] + links.write(said);
            named('link-copied').textContent = '';
            named('link-note').textContent = (refusal === 0 ? '' : 'The codes are refused, so that no answer is wanted. ')
                + (isFile ? 'This page was opened from a file: elsewhere put the part from # on behind the address of the page there.' : '');
        }

        async copyLink() {
            const field = named('link-text');
            field.select();
            const byClipboard = navigator.clipboard && await navigator.clipboard.writeText(field.value).then(() => true, () => false);
            const isCopied = byClipboard || document.execCommand('copy');
            named('link-copied').textContent = isCopied ? 'Copied.' : 'Select it and copy it by hand.';
        }
    }

    function fail(reason) {
        named('failure').hidden = false;
        named('failure').textContent = 'The page cannot go on, and has to be loaded anew: ' + reason.message;
        fill(document.querySelector('main'));
        throw reason;
    }

    // The module in base64, as bytes.
    const moduleBytes = () => Uint8Array.from(atob(MODULE), (letter) => letter.charCodeAt(0));

    async function start() {
        await sundewfrill.load(moduleBytes());
        const shown = new Page();
        shown.set(links.read(window.location.hash) || FIRST);
        return shown;
    }

    const ready = start().catch(fail);
    return { ready };
})();
