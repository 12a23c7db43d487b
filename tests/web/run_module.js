'use strict';
// run_module.js MODULE PROGRAM: runs the page's module in Node through the page's own program.js, which is PROGRAM.
// Each line of standard input is the JSON of one run, and each line of the output that of its result.
const fs = require('fs');
globalThis.crypto ??= require('crypto').webcrypto;
const [moduleFile, programFile] = process.argv.slice(2);
const program = require(require('path').resolve(programFile));
const compiled = new WebAssembly.Module(fs.readFileSync(moduleFile));

for (const line of fs.readFileSync(0, 'utf8').split('\n').filter(line => line)) {
    const {status, out, err, trap, files} = program.run(compiled, JSON.parse(line));
    const contents = [...files].map(([name, bytes]) => [name, Buffer.from(bytes).toString('base64')]);
    fs.writeSync(1, `${JSON.stringify({status, out, err, trap, files: contents})}\n`);
}
