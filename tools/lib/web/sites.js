// Scripts of sites on which much goes wrong, by the rules of tools/lib/site_script.py, from which RULES has the limits. The random numbers are
// others, so the same seed gives another script there.

// Numbers that look random, from a text: each call of the answer gives one from 0 to 1, without 1.
function numbers(text) {
  let state = 0x9E3779B9;
  for (const sign of text) state = Math.imul(state ^ sign.codePointAt(0), 0x01000193) >>> 0;
  return () => {
    state = (state + 0x6D2B79F5) >>> 0;
    let mixed = Math.imul(state ^ (state >>> 15), state | 1);
    mixed ^= mixed + Math.imul(mixed ^ (mixed >>> 7), mixed | 61);
    return ((mixed ^ (mixed >>> 14)) >>> 0) / 4294967296;
  };
}
const hexadecimal = (number, digits) => number.toString(16).toUpperCase().padStart(digits, '0');

// So many different numbers below a limit, none of which was there before.
function drawn(random, count, limit, before = []) {
  const had = new Set(before), found = [];
  while (found.length < count) {
    const number = Math.floor(random() * limit);
    if (!had.has(number)) { had.add(number); found.push(number); }
  }
  return found;
}

// The lines of the rounds of a site, one after the other.
function roundsOf(site, rules) {
  const random = numbers(`rounds ${site.seed}`), pick = count => Math.floor(random() * count);
  const happens = trouble => site.chances[trouble] > 0 && random() < site.chances[trouble];
  const all = count => [...Array(count).keys()], arc = () => hexadecimal(2 * pick(128), 2) + hexadecimal(pick(256), 2);
  const takers = () => [[], [pick(site.gear)], all(site.gear).filter(() => random() < 0.5), all(site.gear)][pick(4)].join(',') || '-';
  const once = { lapse: () => 'lapse', expire: () => `expire ${pick(site.gear)}`, quiet: () => 'quiet', show: () => 'show',
    arc: () => `arc ${pick(site.controllers)} ${arc()}`, foreign: () => `foreign ${arc()}` };
  const surveys = c => site.survey ? [`survey ${c}`] : [];
  // Who is away: the line by which it comes back, with the round.
  const lines = all(site.controllers).flatMap(surveys), away = new Map();
  const backs = now => [...away].filter(([, back]) => back <= now).flatMap(([line]) => {
    away.delete(line);
    return line.startsWith('up') ? [line, ...surveys(line.slice(3))] : [line];
  });
  const leaves = now => {
    const found = [], gear = pick(site.gear), controller = pick(site.controllers);
    if (happens('power') && !away.has(`on ${gear}`)) {
      found.push(`off ${gear}`);
      away.set(`on ${gear}`, now + 1 + pick(rules.absence));
    }
    if (happens('restart') && !away.has(`up ${controller}`)) {
      found.push(...pick(2) ? [`store ${controller}`] : [], `down ${controller}`);
      away.set(`up ${controller}`, now + pick(rules.absence + 1));
    }
    return found;
  };
  const turnOfTheBus = () => {
    let left = random();
    const trouble = rules.frame.find(it => (left -= site.chances[it] || 0) < 0);
    return trouble ? `pump ${trouble}${trouble === 'destroyed' ? ` ${takers()}` : ''}` : 'pump';
  };
  let quiet = 0;
  const add = (...more) => { lines.push(...quiet ? [`run ${quiet}`] : [], ...more); quiet = 0; };
  for (let now = 0; now < site.rounds; now += 1) {
    const first = [...leaves(now), ...backs(now), ...Object.keys(once).filter(happens).map(it => once[it]())];
    const acts = all(site.controllers).filter(c => !away.has(`up ${c}`)).flatMap(c => [...rules.commit.filter(happens), 'go'].map(it => `${it} ${c}`));
    const bus = turnOfTheBus();
    if (first.length) add(...first);
    if (bus !== 'pump' || acts.some(it => !it.startsWith('go'))) add(...acts, bus); else quiet += 1;
  }
  add();
  return [...lines, ...backs(Infinity)];
}

// The script of a site: `gear`, `controllers`, `used`, `seed`, `survey`, and `chances` of troubles in a round, from 0 to 1.
function siteScript(site, rules) {
  const draws = drawn(numbers(`draws ${site.seed}`), Math.min(rules.draws, 64 * site.gear), 0xFFFFFF), each = Math.floor(64 / site.controllers);
  const random = numbers(`used ${site.seed}`), count = Math.min(site.used, site.gear, 64);
  const places = drawn(random, count, site.gear).sort((a, b) => a - b), shorts = drawn(random, count, 64);
  const randoms = drawn(random, count, 0xFFFFFF, draws);
  // The 64 addresses in equal parts.
  const blocks = [...Array(site.controllers).keys()].map(c => `${c * each}-${c === site.controllers - 1 ? 63 : (c + 1) * each - 1}`);
  const head = [`site ${site.gear} ${blocks.join(' ')}`, `draws ${draws.map(it => hexadecimal(it, 6)).join(' ')}`,
    ...places.map((place, k) => `used ${place} ${shorts[k]} ${hexadecimal(randoms[k], 6)}`)];
  // So many rounds as there is room for.
  for (let rounds = Math.min(rules.rounds, 120 * site.gear * site.controllers); ; rounds = Math.floor(rounds / 2)) {
    const text = `${[...head, ...roundsOf({ ...site, rounds }, rules), `run ${rules.last}`, 'show'].join('\n')}\n`;
    if (text.length <= rules.bytes) return text;
  }
}
