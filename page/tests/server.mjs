// A web server over a folder, for this machine alone, that remembers what it was asked for.
import { createServer } from 'node:http';
import { readFile } from 'node:fs/promises';
import { extname, join, normalize } from 'node:path';

const TYPES = {
    '.html': 'text/html; charset=utf-8',
    '.js': 'text/javascript; charset=utf-8',
    '.css': 'text/css; charset=utf-8',
    '.wasm': 'application/wasm',
    '.svg': 'image/svg+xml',
    '.png': 'image/png',
};

async function answer(folder, path, response) {
    const name = path.endsWith('/') ? path + 'index.html' : path;
    // a path that leads out of the folder is cut at its root
    const file = join(folder, normalize('/' + decodeURIComponent(name)));
    const body = await readFile(file).catch(() => null);
    response.writeHead(body ? 200 : 404, { 'Content-Type': body ? TYPES[extname(file)] || 'application/octet-stream' : 'text/plain' });
    response.end(body || 'not here\n');
}

// Gives the server's address, the paths that it was asked for, in their order, and what ends it. Without a folder it has nothing to give.
export async function serve(folder = '/dev/null') {
    const asked = [];
    const server = createServer((request, response) => {
        const path = new URL(request.url, 'http://127.0.0.1').pathname;
        asked.push(path);
        answer(folder, path, response);
    });
    await new Promise((resolve) => server.listen(0, '127.0.0.1', resolve));
    const close = () => new Promise((resolve) => {
        server.close(resolve);
        // a browser keeps its connections open
        server.closeAllConnections();
    });
    return { url: `http://127.0.0.1:${server.address().port}/`, asked, close };
}
