// The page as it is opened, from a stick and from a web server: it asks for its own files alone, and nothing in it can ask for more.
import assert from 'node:assert/strict';
import { readdirSync } from 'node:fs';
import { after, before, test } from 'node:test';
import { inEachBrowser } from './browsers.mjs';
import { SINGLE, SITE } from './built.mjs';
import { serve } from './server.mjs';

// A data: address holds what it names.
const fetched = (urls) => urls.filter((url) => !url.startsWith('data:'));
const files = readdirSync(SITE).map((file) => '/' + file.replace(/^index\.html$/, ''));

// Runs in the page: asks for `url` in each way that a page has, and gives those that were answered.
async function ways(url) {
    const named = (tag, name) => new Promise((resolve) => {
        const element = Object.assign(document.createElement(tag), { onload: () => resolve([tag]), onerror: () => resolve([]) });
        if (tag === 'link') element.rel = 'stylesheet';
        element[name] = url + tag;
        document.head.append(element);
    });
    const asked = [
        fetch(url + 'fetch', { mode: 'no-cors' }).then(() => ['fetch'], () => []),
        new Promise((resolve) => {
            const request = Object.assign(new XMLHttpRequest(), { onload: () => resolve(['request']), onerror: () => resolve([]) });
            request.open('GET', url + 'request');
            request.send();
        }),
        named('img', 'src'),
        named('script', 'src'),
        named('link', 'href'),
    ];
    return (await Promise.all(asked)).flat();
}

inEachBrowser((browser, name) => {
    let site;
    let stranger;
    before(async () => {
        site = await serve(SITE);
        stranger = await serve();
    });
    after(() => Promise.all([site.close(), stranger.close()]));

    const opened = async (url) => {
        const page = await browser().open(url);
        await page.evaluate(() => page.ready.then(() => true));
        assert.equal(await page.evaluate(() => document.getElementById('said').textContent), 'Answer $300.00]$25.00\\$30.00, 345 steps');
        return page;
    };

    test(`from a file it asks for nothing else, in ${name}`, async () => {
        const page = await opened(SINGLE);
        if (page.requests) assert.deepEqual(fetched(page.requests), [SINGLE]);
        assert.deepEqual(await page.complained(), []);
    });

    test(`from a server it asks for its own files, each of them once, in ${name}`, async () => {
        const page = await opened(site.url);
        assert.deepEqual(site.asked.slice().sort(), files.slice().sort());
        if (page.requests) assert.deepEqual(fetched(page.requests).sort(), files.map((file) => new URL(file, site.url).href).sort());
        assert.deepEqual(await page.complained(), []);
    });

    test(`an icon that is none keeps browsers from asking for one, in ${name}`, async () => {
        for (const url of [SINGLE, site.url]) {
            const page = await opened(url);
            assert.equal(await page.evaluate(() => document.querySelector('link[rel~="icon"]').href), 'data:,');
        }
    });

    test(`nothing can be fetched from it, in ${name}`, async () => {
        for (const url of [SINGLE, site.url]) {
            const page = await opened(url);
            assert.deepEqual(await page.evaluate(ways, stranger.url), [], `from ${url}`);
        }
        assert.deepEqual(stranger.asked, []);
    });

    test(`nor can it ask its own server for more by itself, in ${name}`, async () => {
        const page = await opened(site.url);
        const before = site.asked.length;
        const answered = await page.evaluate(() => fetch('page.css').then(() => true, () => false));
        assert.equal(answered, false);
        assert.equal(site.asked.length, before);
    });
});
