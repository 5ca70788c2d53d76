const at = id => document.getElementById(id);
const element = (kind, text, options) => Object.assign(document.createElement(kind), text === undefined ? {} : { textContent: text }, options);
const bytesOf = text => new TextEncoder().encode(text), textOf = bytes => new TextDecoder().decode(bytes);
const fail = why => { at('trouble').hidden = false; at('trouble').textContent = `This browser cannot show the page: ${why}`; };

// ---- Bytes as text and back, compressed.
const through = async (bytes, by) => new Uint8Array(await new Response(new Blob([bytes]).stream().pipeThrough(by)).arrayBuffer());
const unpacked = text => through(Uint8Array.from(atob(text), it => it.charCodeAt(0)), new DecompressionStream('deflate-raw'));
async function packed(bytes) {
  const small = await through(bytes, new CompressionStream('deflate-raw')), parts = [];
  for (let k = 0; k < small.length; k += 4096) parts.push(String.fromCharCode(...small.subarray(k, k + 4096)));
  return btoa(parts.join('')).replace(/\+/g, '-').replace(/\//g, '_').replace(/=+$/, '');
}

// ---- The player, in a worker: one script at a time. What is asked for again before it has begun is played once, as it was asked last.
const PATIENCE = 400;
let binary, worker = null, running = null, waiting = new Map(), count = 0;
const runner = URL.createObjectURL(new Blob([at('worker').textContent], { type: 'text/javascript' }));
function ask(what, kind, script, end) {
  return new Promise(resolve => {
    waiting.get(what)?.resolve(null);
    waiting.set(what, { what, kind, script, end, resolve, number: count += 1, since: performance.now() });
    if (running && running.what === what && performance.now() - running.since > 4 * PATIENCE) stop();
    next();
  });
}
function next() {
  if (running || !waiting.size) return;
  if (!worker) {
    worker = new Worker(runner);
    worker.onerror = why => fail(why.message);
    worker.onmessage = ({ data }) => { if (running?.number === data.number) ended(data); };
    worker.postMessage({ player: binary });
  }
  running = waiting.values().next().value;
  waiting.delete(running.what);
  const { number, kind, script, end } = running;
  running.since = performance.now();
  running.timer = setTimeout(() => { at('stop').hidden = false; }, PATIENCE);
  worker.postMessage({ number, kind, script, end });
}
function ended(found) {
  const { resolve, timer, since } = running;
  clearTimeout(timer);
  at('stop').hidden = true;
  running = null;
  resolve(found && { ...found, took: performance.now() - since });
  next();
}
function stop() {
  worker?.terminate();
  worker = null;
  if (running) ended(null);
}

// ---- The editor: numbers of lines, and a mark at the word with which something is wrong.
const LINE = 20, script = at('script'), ruler = document.createElement('canvas').getContext('2d');
let lines = [''], wrong = null;
function showNumbers() {
  const first = Math.max(0, Math.floor((script.scrollTop - 6) / LINE)), most = Math.ceil(script.clientHeight / LINE) + 1, rows = [];
  for (let k = first; k < Math.min(lines.length, first + most); k += 1) rows.push(element(wrong?.line === k + 1 ? 'b' : 'span', `${k + 1}\n`));
  at('numbers').replaceChildren(...rows);
  at('numbers').style.top = `${first * LINE - script.scrollTop}px`;
  at('mark').hidden = !wrong;
  if (!wrong) return;
  ruler.font = getComputedStyle(script).font;
  const line = lines[wrong.line - 1] ?? '', [from, to] = spanOf(line), wide = text => ruler.measureText(text.replace(/\t/g, ' ')).width;
  const left = wide(line.slice(0, from)), width = Math.max(8, wide(line.slice(from, to)));
  Object.assign(at('mark').style, { top: `${6 + (wrong.line - 1) * LINE - script.scrollTop}px`, left: `${8 + left - script.scrollLeft}px`, width: `${width}px` });
}
// From where to where the wrong word stands in its line; all of the line if no word is named.
function spanOf(line) {
  const words = line.split(' '), before = words.slice(0, wrong.word - 1).join(' ');
  if (!wrong.word || wrong.word > words.length) return [0, line.length];
  const from = wrong.word === 1 ? 0 : before.length + 1;
  return [from, from + words[wrong.word - 1].length];
}
function goToWrong() {
  const before = lines.slice(0, wrong.line - 1).reduce((sum, line) => sum + line.length + 1, 0), [from, to] = spanOf(lines[wrong.line - 1] ?? '');
  script.focus();
  script.setSelectionRange(before + from, before + to);
  script.scrollTop = Math.max(0, (wrong.line - 4) * LINE);
}
script.addEventListener('scroll', showNumbers);
new ResizeObserver(showNumbers).observe(script);

// ---- What comes of the script: as soon as it changes.
const SHOWN = 200_000, DRAWN = 3_000_000;
// `last` is what was played last.
let typing = 0, last = null, shown = null, drawing = null;
function edited() {
  lines = script.value.split('\n');
  wrong = null;
  showNumbers();
  clearTimeout(typing);
  typing = setTimeout(play, 150);
}
async function play() {
  typing = 0;
  const text = script.value, bytes = bytesOf(text), found = await ask('script', 'text', bytes);
  if (!found) { if (text === script.value && !waiting.has('script')) say('part', 'It was stopped.'); return; }
  if (text !== script.value) return;
  last = { text, bytes, lines: text.split('\n'), found };
  wrong = found.line ? found : null;
  lines = last.lines;
  showNumbers();
  const time = `Played in ${Math.round(found.took)} ms.`;
  if (found.status) say('bad', `${found.said[0]?.toUpperCase() ?? ''}${found.said.slice(1)}.`, wrong && 'Go there');
  else say('good', `\u2713 Each line has one of the forms. ${time}`);
  await showReport();
  if (found.status) { showPicture(null); return; }
  const told = await ask('story', 'story', bytes);
  if (told && last.text === text) showPicture(told);
}
function say(kind, text, button) {
  at('where').className = `box ${kind}`;
  at('where').replaceChildren(text);
  if (button) at('where').append(element('button', button, { onclick: goToWrong }));
}
async function showReport() {
  const form = at('form').value, of = last;
  const found = form === 'text' ? of.found : await ask('report', form, of.bytes);
  if (!found || of !== last) return;
  shown = found.wrote;
  const cut = shown.length > SHOWN ? `\n.. and ${(shown.length - SHOWN).toLocaleString('en')} bytes more: save the report to see them` : '';
  at('report').textContent = textOf(shown.subarray(0, SHOWN)) + cut;
}
at('form').onchange = showReport;
at('stop').onclick = stop;
script.addEventListener('input', edited);

// ---- The picture: the viewer, filled with the story.
let viewer = '';
function showPicture(told) {
  at('draw').hidden = true;
  if (!told || told.status) {
    at('picture-say').textContent = drawing ? 'The picture is that of the last script that could be played to its end.' : '';
    return;
  }
  if (told.wrote.length > DRAWN) {
    at('draw').hidden = false;
    at('draw').textContent = `Draw the picture of ${Math.round(told.wrote.length / 1e6)} MB`;
    at('draw').onclick = () => draw(told.wrote);
    at('picture-say').textContent = 'The run is long.';
    return;
  }
  draw(told.wrote);
}
function draw(story) {
  at('draw').hidden = true;
  at('picture-say').textContent = '';
  const [before, after] = viewer.split('/*' + 'STORY*/');
  const page = new Blob([before, textOf(story).replaceAll('<', '\\u003c'), after], { type: 'text/html' });
  if (drawing) URL.revokeObjectURL(drawing);
  drawing = URL.createObjectURL(page);
  // A new frame in place of the old one leaves no step in the browser's history.
  const frame = element('iframe', undefined, { id: 'picture', title: 'The picture of the run', src: drawing });
  at('picture').replaceWith(frame);
}

// ---- Scripts that are given: examples, files, links, sites.
let TEXTS = null, before = '';
function give(text) {
  at('undo').disabled = !script.value;
  before = script.value;
  script.value = text;
  script.scrollTop = script.scrollLeft = 0;
  edited();
}
function showExamples() {
  at('example').replaceChildren(element('option', 'choose one', { value: '' }), ...Object.keys(TEXTS.examples).map(it => element('option', it)));
}
at('example').onchange = () => { const text = TEXTS.examples[at('example').value]; if (text !== undefined) give(text); };
at('undo').onclick = () => give(before);
at('open').onclick = () => at('file').click();
at('file').onchange = async () => {
  const [file] = at('file').files;
  if (file) give(await file.text());
  at('file').value = '';
};
function save(bytes, name) {
  const to = URL.createObjectURL(new Blob([bytes], { type: 'text/plain' }));
  element('a', '', { href: to, download: name }).click();
  setTimeout(() => URL.revokeObjectURL(to), 1000);
}
at('save').onclick = () => save(bytesOf(script.value), 'script.txt');
at('keep').onclick = () => { if (shown) save(shown, { text: 'report.txt', json: 'report.json', story: 'story.json' }[at('form').value]); };
at('link').onclick = async () => {
  const link = `${location.href.split('#')[0]}#script=${await packed(bytesOf(script.value))}`;
  history.replaceState(null, '', link);
  let text = 'The address of this page has the script in it now';
  try { await navigator.clipboard.writeText(link); text = 'The link is copied: it has the script in it'; } catch { text += ': copy it from there'; }
  const long = link.length > 2000 ? ` It has ${link.length.toLocaleString('en')} characters, which not every program takes.` : '';
  at('linked').textContent = `${text}.${long}`;
};
// The script that the address has behind #, if it has one.
async function linked() {
  const found = /^#script=([\w-]*)$/.exec(location.hash);
  if (!found) return null;
  try {
    return textOf(await unpacked(found[1].replace(/-/g, '+').replace(/_/g, '/')));
  } catch {
    at('linked').textContent = 'The link is spoilt: no script can be read from it.';
    return null;
  }
}
addEventListener('hashchange', async () => { const text = await linked(); if (text !== null) give(text); });

// ---- A site by sliders.
const SITE = { gear: 8, controllers: 2, used: 0, seed: 1, survey: false, chances: {} };
function showSliders() {
  const slider = (name, text, min, max, step, of, key, shownAs) => {
    const label = element('label'), head = element('span', text), value = element('b', shownAs(of[key]));
    const input = element('input', undefined, { type: 'range', min, max, step, id: `site-${name}`, value: of[key] ?? 0 });
    head.append(value);
    label.append(head, input);
    input.oninput = () => { of[key] = +input.value; value.textContent = shownAs(of[key]); makeSite(); };
    return label;
  };
  const number = (name, text, least, most) => slider(name, text, least, most, 1, SITE, name, String);
  const check = element('label', undefined, { className: 'check' }), box = element('input', undefined, { type: 'checkbox', id: 'site-survey' });
  box.onchange = () => { SITE.survey = box.checked; makeSite(); };
  box.style.cssText = 'width: 22px; min-height: 22px; vertical-align: middle; margin-right: 8px';
  check.append(box, 'each controller begins with a survey');
  const troubles = Object.entries(TEXTS.troubles).map(([name, text]) => slider(name, `${name}: ${text}`, 0, 0.1, 0.002, SITE.chances, name,
    it => `${(100 * (it ?? 0)).toFixed(1)} %`));
  at('sliders').replaceChildren(number('gear', 'gear', 1, 128), number('controllers', 'controllers', 1, 4),
    number('used', 'gear with a short address of their own', 0, 64), number('seed', 'another site of this kind', 1, 100), check, ...troubles);
}
let making = 0;
function makeSite() {
  clearTimeout(making);
  making = setTimeout(() => { making = 0; at('example').value = ''; give(siteScript(SITE, TEXTS.rules)); }, 100);
}
at('make').onclick = makeSite;

// ---- The begin.
(async () => {
  try {
    const text = await linked();
    binary = await unpacked(at('player').textContent);
    TEXTS = JSON.parse(textOf(await unpacked(at('texts').textContent)));
    viewer = textOf(await unpacked(at('viewer').textContent));
    at('licences').textContent = TEXTS.licences;
    showExamples();
    showSliders();
    if (text === null) at('example').value = TEXTS.first;
    give(text ?? TEXTS.examples[TEXTS.first]);
    window.player = Object.freeze({ ask, siteScript: site => siteScript(site, TEXTS.rules), get isIdle() { return !running && !waiting.size; },
      get isTyping() { return !!(typing || making); } });
  } catch (why) { fail(why); }
})();
