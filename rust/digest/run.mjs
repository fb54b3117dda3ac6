// What src/main.rs does, by the module for WebAssembly: node run.mjs MODULE [images | again]
import { readFileSync, writeFileSync } from "node:fs";

const [file, word = "text"] = process.argv.slice(2);
const read = word === "again" ? readFileSync(0) : [];
const { exports } = (await WebAssembly.instantiate(readFileSync(file))).instance;
// The memory may have grown, so each list is made of it as it is then.
const bytes = (begin, len) => new Uint8Array(exports.memory.buffer, begin, len);
bytes(exports.input(read.length), read.length).set(read);
const len = Number(exports[`put_${word}`]());
if (len < 0) throw new Error(`${word} failed`);
writeFileSync(1, bytes(exports.output(), len));
