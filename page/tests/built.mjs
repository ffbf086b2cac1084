// Where the page stands that is tested: what page/build has made, or a folder like it that the environment names.
import { resolve } from 'node:path';
import { fileURLToPath, pathToFileURL } from 'node:url';

export const REPOSITORY = fileURLToPath(new URL('../..', import.meta.url));
const MADE = resolve(process.env.SUNDEWFRILL_PAGE || resolve(REPOSITORY, 'target/page'));

// The page as one file, by its address; and the folder with the same as separate files.
export const SINGLE = pathToFileURL(resolve(MADE, 'practice.html')).href;
export const SITE = resolve(MADE, 'site');
