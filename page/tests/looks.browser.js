'use strict';
// Runs in the page: every text that is seen, with its contrast against what is behind it.
const looks = (() => {
    const LEAST = 4.5;
    const PARTS = ['::before', '::after'];

    function colorOf(text) {
        const numbers = text.match(/[0-9.]+/g).map(Number);
        if (!/^rgba?\(/.test(text)) throw new Error('no colour that is known: ' + text);
        return { rgb: numbers.slice(0, 3), alpha: numbers.length > 3 ? numbers[3] : 1 };
    }

    const over = ({ rgb, alpha }, behind) => rgb.map((part, i) => part * alpha + behind[i] * (1 - alpha));

    // The colours behind an element from itself to the root, laid over each other; behind all is the browser's own ground.
    function groundOf(element) {
        const isDark = matchMedia('(prefers-color-scheme: dark)').matches;
        const all = [];
        for (let node = element; node; node = node.parentElement) {
            const ground = colorOf(getComputedStyle(node).backgroundColor);
            all.push(ground);
            if (ground.alpha === 1) break;
        }
        return all.reverse().reduce((behind, ground) => over(ground, behind), isDark ? [18, 18, 18] : [255, 255, 255]);
    }

    const luminance = (rgb) => {
        const [r, g, b] = rgb.map((part) => part / 255).map((part) => part <= 0.03928 ? part / 12.92 : ((part + 0.055) / 1.055) ** 2.4);
        return 0.2126 * r + 0.7152 * g + 0.0722 * b;
    };

    function contrastOf(element, part) {
        const ground = groundOf(element);
        const style = getComputedStyle(element, part);
        const text = over(colorOf(style.color), ground);
        const [light, dark] = [luminance(ground), luminance(text)].sort((a, b) => b - a);
        return (light + 0.05) / (dark + 0.05);
    }

    // Not in the picture: hidden, cut to a pixel for who does not see it, outside the page, or of a control that is switched off.
    function isSeen(element) {
        const box = element.getBoundingClientRect();
        const unseen = element.closest('.unseen, :disabled');
        return !unseen && box.width > 1 && box.height > 1 && box.right > 0 && getComputedStyle(element).visibility === 'visible';
    }

    function textsOf(element) {
        const own = Array.from(element.childNodes).filter((node) => node.nodeType === 3).map((node) => node.data).join('').trim();
        const typed = ['INPUT', 'TEXTAREA'].includes(element.tagName) ? element.value || element.placeholder : '';
        const isText = ([, content]) => !['none', 'normal'].includes(content) && /[^\s"]/.test(content);
        const made = PARTS.map((part) => [part, getComputedStyle(element, part).content]).filter(isText);
        return [...(own || typed ? [[null, own || typed]] : []), ...made];
    }

    // All texts with the least contrast among them, and those that have too little.
    function contrasts() {
        const all = Array.from(document.body.querySelectorAll('*')).filter(isSeen).flatMap((element) => textsOf(element).map(([part, text]) => {
            const name = `${element.tagName.toLowerCase()}#${element.id}.${element.className}${part || ''}`;
            return { name, text: text.slice(0, 40), contrast: contrastOf(element, part) };
        }));
        const least = Math.min(...all.map(({ contrast }) => contrast));
        return { count: all.length, least, bad: all.filter(({ contrast }) => contrast < LEAST) };
    }

    // What is wider than the window.
    function wide() {
        const most = document.documentElement.clientWidth;
        const isScrolled = (node) => node.parentElement && (getComputedStyle(node.parentElement).overflowX !== 'visible' || isScrolled(node.parentElement));
        const all = Array.from(document.body.querySelectorAll('*')).filter((node) => node.getBoundingClientRect().right > most + 0.5 && !isScrolled(node));
        return { width: document.documentElement.scrollWidth, wider: all.map((node) => node.tagName + '#' + node.id + '.' + node.className).slice(0, 5) };
    }

    return { contrasts, wide };
})();
