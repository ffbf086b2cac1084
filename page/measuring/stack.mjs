// How much of the stack the deepest A code takes, on an instance of its own: the stack lies first in a memory that begins as zeros and grows down
// from its end, so that the lowest byte that is not zero is the deepest that was written.
import { readFileSync } from 'node:fs';

const [moduleName, stackLength] = [process.argv[2], Number(process.argv[3])];
const CODE = Buffer.from('A' + '('.repeat(511));
const OUTPUT_LENGTH = 32768;
// What the library says of an expression that is not closed.
const NOT_ONE = 6;

const { instance } = await WebAssembly.instantiate(readFileSync(moduleName), {});
const library = instance.exports;
const code = library.lent_at();
const output = code + CODE.length;
const missing = output + OUTPUT_LENGTH - library.memory.buffer.byteLength;
if (missing > 0) library.memory.grow(Math.ceil(missing / 65536));
const memory = new Uint8Array(library.memory.buffer);
memory.set(CODE, code);
const given = new DataView(library.memory.buffer, library.given_at());
[code, CODE.length, output, OUTPUT_LENGTH].forEach((number, i) => given.setUint32(8 * i, number, true));
library.algebra();
const refusal = new DataView(library.memory.buffer).getUint32(library.told_at(), true);
if (refusal !== NOT_ONE) throw new Error(`the deepest A code was refused with ${refusal}`);
console.log(stackLength - memory.subarray(0, stackLength).findIndex((byte) => byte !== 0));
