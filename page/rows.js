'use strict';
// A long list of rows of one height in a box that scrolls: only the rows that are seen are drawn, and one that is to be kept.
const rows = (() => {
    // As --row of page.css.
    const HEIGHT = 32;
    // Rows that are drawn above and below those that are seen.
    const BEYOND = 4;

    // `draw(index)` makes a row; `kept()` is the index of one that is drawn wherever the box is scrolled to, -1 for none.
    function create(box, draw, kept = () => -1) {
        const body = drawing.make('div', { class: 'rows-body', role: 'rowgroup' });
        const drawn = new Map();
        let count = 0;
        box.append(body);

        function add(index, next) {
            const node = draw(index);
            node.style.top = index * HEIGHT + 'px';
            drawn.set(index, node);
            body.insertBefore(node, next);
            return node;
        }

        // Rows that stay are not touched, so that what has the focus, or is being typed in, stays as it is.
        function drawSeen() {
            const first = Math.max(0, Math.floor(box.scrollTop / HEIGHT) - BEYOND);
            const last = Math.min(count, Math.ceil((box.scrollTop + box.clientHeight) / HEIGHT) + BEYOND);
            for (const [index, node] of drawn) {
                if ((index >= first && index < last) || index === kept()) continue;
                node.remove();
                drawn.delete(index);
            }
            for (let index = last - 1, next = null; index >= first; index--) next = drawn.get(index) || add(index, next);
            if (kept() >= 0 && kept() < count && !drawn.has(kept())) add(kept(), null);
        }

        function show(total) {
            count = total;
            drawn.clear();
            body.textContent = '';
            body.style.height = count * HEIGHT + 'px';
            drawSeen();
        }

        // Scrolls no further than that the row is seen whole; a head of one row's height stays above the rows.
        function reveal(index) {
            const top = index * HEIGHT;
            const room = box.clientHeight - HEIGHT;
            if (top < box.scrollTop) box.scrollTop = top;
            else if (top + HEIGHT > box.scrollTop + room) box.scrollTop = top + HEIGHT - room;
            drawSeen();
        }

        box.addEventListener('scroll', drawSeen);
        return { show, reveal };
    }

    return { create };
})();
