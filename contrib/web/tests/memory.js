// node memory.js MODULE.wasm: the random calls of memory.c.
'use strict';
const assert = require('assert');
const { try_memory, try_wide } = new WebAssembly.Instance(new WebAssembly.Module(require('fs').readFileSync(process.argv[2]))).exports;
for (let seed = 1n; seed <= 20n; seed++) {
  assert.equal(try_memory(seed, 20000), 0);
  assert.equal(try_wide(seed, 20000), 0);
}
console.log('contrib/web: memory is given and taken back');
