'use strict';
// Code caches of JavaScript files, by the node that runs this: every function is compiled (V8's --no-lazy), nothing is run, as bytenode does.
//   node make.js OUT FILE..
//   node --print-bytecode --no-flush-bytecode make.js --mark OUT FILE.. >PRINT
// The cache of the k-th FILE is OUT/k/NAME.jsc, NAME without its folders; caches have checksums. With --mark a line stands on standard output
// before the first file is compiled and one behind the last, so that what V8 prints between them is these files' and nothing else.
// Its status is 1 where a file has no cache: then there are no caches.
const fs = require('fs');
const path = require('path');
const v8 = require('v8');
const vm = require('vm');
const { wrap } = require('module');

const args = process.argv.slice(2);
const marks = args[0] === '--mark';
const [out, ...files] = marks ? args.slice(1) : args;

function mark(text) {
  if (marks) fs.writeSync(1, text);
}

// A line on standard error: `app.js:3: SyntaxError: ..` where V8 names the place in the file.
function failed(file, e) {
  const place = e.stack.startsWith(`${file}:`) ? e.stack.slice(0, e.stack.indexOf('\n')) : file;
  console.error(`${place}: ${e.name}: ${e.message}`);
  process.exitCode = 1;
}

// Each file as a function of node's five parameters. A hashbang line becomes empty.
function sourcesOf(files) {
  const sources = [];
  for (const file of files) {
    try {
      sources.push(wrap(fs.readFileSync(file, 'utf8').replace(/^#!.*/, '')));
    } catch (e) {
      failed(file, e);
    }
  }
  return sources;
}

function scriptsOf(files, sources) {
  const scripts = [];
  for (let k = 0; k < files.length; k++) {
    try {
      scripts.push(new vm.Script(sources[k], { filename: files[k] }));
    } catch (e) {
      failed(files[k], e);
    }
  }
  return scripts;
}

v8.setFlagsFromString('--no-lazy');
v8.setFlagsFromString('--no-flush-bytecode');
v8.setFlagsFromString('--verify-snapshot-checksum');
const sources = sourcesOf(files);
if (process.exitCode) process.exit();
// All once before the first mark, so that no function of node's own or of this file is compiled behind it.
scriptsOf([__filename], sourcesOf([__filename]));
mark('');
mark('files begin\n');
const scripts = scriptsOf(files, sources);
mark('files end\n');
if (process.exitCode) process.exit();
files.forEach((file, k) => {
  const folder = path.join(out, String(k).padStart(5, '0'));
  fs.mkdirSync(folder, { recursive: true });
  fs.writeFileSync(path.join(folder, `${path.basename(file)}.jsc`), scripts[k].createCachedData());
});
