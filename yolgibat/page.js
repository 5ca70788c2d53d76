// What the pages of a bus and of a building have in common.
const at = id => document.getElementById(id);
const TEXTS = JSON.parse(at('texts').textContent);
// A text of this language, with what is put in.
const T = (key, parts) => (TEXTS[key] || key).replace(/\{(\w+)\}/g, (all, name) => parts && name in parts ? String(parts[name]) : all);
// The language of dates: as the browser has it, if the page has the browser's language.
const LANGUAGE = document.documentElement.lang, WHERE = navigator.language.startsWith(LANGUAGE) ? undefined : LANGUAGE;
// How each thing that is known of a short address looks.
const WHAT = {
  there: ['good', '✓'], silent: ['part', '?'], enrolled: ['', '•'], 'left-alone': ['part', '–'], missing: ['bad', '?'], another: ['bad', '!'],
  several: ['bad', '!'], unclear: ['bad', '!'], unfinished: ['part', '!'], stranger: ['part', '+'], strangers: ['bad', '!'],
  'unclear-strangers': ['bad', '!'], 'heard-now': ['good', '+'], 'given-now': ['good', '✓'], 'unclear-now': ['part', '!'], free: ['free', ''] };
// What the program told last; how often it did not answer; what was refused, and until when that is said.
let state = null, misses = 0, refused = { text: '', until: 0 };

for (const it of document.querySelectorAll('[data-t]')) it.textContent = T(it.dataset.t);
for (const it of document.querySelectorAll('[data-label]')) it.setAttribute('aria-label', T(it.dataset.label));
function element(kind, text, options) {
  const it = Object.assign(document.createElement(kind), options || {});
  if (text !== undefined) it.textContent = text;
  return it;
}
function put(id, text) { if (at(id).textContent !== text) at(id).textContent = text; }
// Asks the program. Whether that is done; what is refused goes to `tell`.
async function ask(path, body, tell) {
  const how = body === undefined ? {} : { method: 'POST', headers: { 'Content-Type': 'application/json' }, body: JSON.stringify(body) };
  let next = null;
  try {
    const got = await fetch(path, { ...how, signal: AbortSignal.timeout(8000) });
    if (!got.ok) {
      const why = got.headers.get('Why'), text = await got.text();
      hear();
      (tell || say)(why ? T('why:' + why) : text.trim(), why);
      return false;
    }
    next = await got.json();
  } catch {
    misses += body === undefined ? 1 : 2;
    if (misses > 1) showSilent();
    return false;
  }
  hear();
  show(next);
  return true;
}
function hear() {
  misses = 0;
  document.body.classList.remove('silent');
  for (const it of document.querySelectorAll('main')) it.inert = false;
}
// The program does not answer: what it told last may be so no more, so nothing is said of it, and nothing can be asked for.
function showSilent() {
  document.body.classList.add('silent');
  for (const it of document.querySelectorAll('main')) it.inert = true;
  at('bar').className = 'box bad';
  at('meter').hidden = true;
  put('progress', T('silent-bar'));
  put('words', T('silent'));
}
function say(text) { refused = { text, until: Date.now() + 10000 }; showTrouble(); }
function showTrouble() {
  const text = [state && state.trouble && T(state.trouble), Date.now() < refused.until && refused.text].filter(Boolean).join(' ');
  put('trouble', text);
  at('trouble').hidden = !text;
}
