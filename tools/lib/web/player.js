'use strict';
// Plays scripts by the library dali_web. The page has this in a worker; tools/check/web also runs it by node.

// How much room there is for what is written at first, and at most; and for what is said of a fault.
const ROOM = 1 << 20, MOST = 1 << 28, SAID = 4096;
const NO_ROOM = 4, REFUSED = 3;
const CALLS = { text: ['dali_web_play', 0], json: ['dali_web_play', 1], story: ['dali_web_tell'] };

// What comes of a script: its status, the bytes that are written, what is said of a fault, and the line and the word of it, 0 for none.
// With an end, memory ends there.
function played(module, kind, script, end) {
  const [name, ...more] = CALLS[kind];
  for (let room = ROOM; ;) {
    const it = new WebAssembly.Instance(module).exports;
    if (end) it.limit(end);
    const places = [script.length, room, SAID, 32].map(it.room);
    if (places.includes(0)) return { status: REFUSED, wrote: new Uint8Array(), said: 'out of memory', line: 0, word: 0 };
    const [from, wrote, said, told] = places.map(place => place >>> 0);
    new Uint8Array(it.memory.buffer).set(script, from);
    const status = it[name](...more, from, BigInt(script.length), wrote, BigInt(room), said, BigInt(SAID), told);
    const numbers = [...new BigUint64Array(it.memory.buffer.slice(told, told + 32))].map(Number);
    if (status !== NO_ROOM) {
      const text = new TextDecoder().decode(it.memory.buffer.slice(said, said + numbers[1])) || (status === REFUSED ? 'out of memory' : '');
      return { status, wrote: new Uint8Array(it.memory.buffer.slice(wrote, wrote + numbers[0])), said: text, line: numbers[2], word: numbers[3] };
    }
    if (numbers[0] <= room || numbers[0] > MOST) {
      return { status: REFUSED, wrote: new Uint8Array(), said: `it would write ${numbers[0]} bytes, which is too much for a page`, line: 0, word: 0 };
    }
    room = numbers[0];
  }
}

if (typeof WorkerGlobalScope !== 'undefined') {
  let module;
  self.onmessage = ({ data }) => {
    if (data.player) { module = new WebAssembly.Module(data.player); return; }
    try {
      self.postMessage({ number: data.number, ...played(module, data.kind, data.script, data.end) });
    } catch (why) {
      self.postMessage({ number: data.number, status: REFUSED, wrote: new Uint8Array(), said: `the player stopped: ${why}`, line: 0, word: 0 });
    }
  };
}
