// The browsers that tests run in: Chromium, and Firefox where it is.
import { after, before, describe } from 'node:test';
import * as chromium from './chromium.mjs';
import * as firefox from './firefox.mjs';

// Tests that run in each browser: `tests` gets what gives the browser once it runs, and its name. Where one is not here, a line says so.
export function inEachBrowser(tests) {
    for (const { name, launch, program } of [chromium, firefox]) {
        describe(`in ${name}`, { skip: program() ? false : `${name} is not installed` }, () => {
            let browser = null;
            before(async () => browser = await launch());
            after(() => browser && browser.close());
            tests(() => browser, name);
        });
    }
}
