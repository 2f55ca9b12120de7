// Asks questions.js, beside domethyme.js: a line of JSON on standard input, { module, name, words }, where files are { file: PATH }.

import { readFileSync } from "node:fs";
import * as questions from "./questions.js";

const read = (word) => word?.file ? new Uint8Array(readFileSync(word.file)) : Array.isArray(word) ? word.map(read) : word;
const { module, name, words } = JSON.parse(readFileSync(0, "utf8"));
process.stdout.write(JSON.stringify(await questions[name](readFileSync(module), ...words.map(read))));
