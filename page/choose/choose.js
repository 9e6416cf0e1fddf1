'use strict';
// ---- the protocols, by their numbers at the module: the name in heads of stored runs, the words of the page, what is
// found, and the last limit of states that are explored, by time and memory: 24 s and 578 MB by GHS on a busy machine, 11 s and 553 MB
// by the others, whose states are larger
const PROTOCOLS = [
  { name: 'ghs', title: 'GHS', by: 'GHS', finds: 'the minimum spanning forest', states: 2000000 },
  { name: 'boruvka', title: 'Bor\u016fvka in step', by: 'Bor\u016fvka in step', finds: 'the minimum spanning forest', states: 1000000 },
  { name: 'echo', title: 'echo wave', by: 'the echo wave', finds: 'a tree for each node that woke by itself', states: 1000000 },
  { name: 'gather', title: 'Gather', by: 'Gather', finds: 'the minimum spanning forest', states: 1000000 },
];
// ---- the module: the program's own rules, which are proved. The page asks it, and knows no rule of its own.
const UTF8 = new TextEncoder(), TEXT = new TextDecoder();
let box = null, room = 0n, roomSize = 1 << 16;
// a worker starts it from the same bytes
let moduleCode = null;
async function power() { box = (await WebAssembly.instantiate(moduleCode = await moduleBytes(), {})).instance.exports; }
function allot(n) {
  const at = box.heap_take(BigInt(Math.max(1, n)));
  if (!at) throw Error('the page is out of memory');
  return at;
}
function hold(text) {
  const bytes = UTF8.encode(text), at = allot(bytes.length);
  new Uint8Array(box.memory.buffer).set(bytes, Number(at));
  return [at, BigInt(bytes.length)];
}
// a call is asked again with more room where its answer didn't fit; it keeps nothing, so it answers the same
function call(f, p, texts, ...more) {
  const held = texts.map(hold);
  for (;;) {
    room = room || allot(roomSize);
    const n = Number(f(wakeFirst ? 1 : 0, p, ...held.flat(), ...more, room, BigInt(roomSize)));
    if (n <= roomSize) {
      const text = TEXT.decode(new Uint8Array(box.memory.buffer, Number(room), n));
      for (const [at] of held) box.heap_free(at);
      return text;
    }
    box.heap_free(room);
    room = 0n;
    roomSize = 2 * n;
  }
}
const wordOf = seed => BigInt.asIntN(64, BigInt(seed));
const seenOf = (graph, trace, p = by) => call(box.ghs_web_seen, p, [graph, trace]);
const runOf = (graph, trace, patient, seed) => call(box.ghs_web_run, by, [graph, trace], patient ? 1 : 0, wordOf(seed));
const timedOf = (graph, seed, p) => call(box.ghs_web_timed, p, [graph], wordOf(seed));
const faultOf = text => text.startsWith('{"fault"') ? JSON.parse(text) : null;

// ---- what is led: the graph's text, the protocol and the events; the moment at which one looks is the page's
let graphText = '', wakeFirst = false, by = 0, shownBy = 0, offered = new Map(), offers = new Map(), ended = false, pointed = null, givenUp = null;
// where the nodes of a drawn network stand
let placed = null;
const keyOf = e => e.join(' ');
const eventsNow = () => steps.map(s => s.port === null ? [s.node] : [s.node, s.port]);
const headOf = (p, n) => 'trace ' + (p ? PROTOCOLS[p].name + ' ' : '') + n + '\n';
const eventsText = (p, es) => headOf(p, es.length) + es.map(e => (e.length === 1 ? 'wake ' : 'take ') + keyOf(e) + '\n').join('');
const traceOf = es => eventsText(by, es);
// the protocol that the head of a stored run names; of another name the module says what is wrong
const protocolIn = trace => { const [, name] = /^\s*trace\s+(\D\S*)\s/.exec(trace) || []; return Math.max(0, PROTOCOLS.findIndex(p => p.name === name)); };
const choicesIn = text => {
  const at = text.indexOf('{"may":'), lines = at < 0 ? [] : text.slice(at).split('\n').filter(x => x.startsWith('{"may":')).map(x => JSON.parse(x));
  return new Map(lines.map(o => [keyOf(o.may), o]));
};
const hasEnded = text => text.endsWith('{"ended":true}\n');
function say(text, back) {
  const was = $('note').textContent;
  $('note').textContent = text || '';
  if (back) { const b = document.createElement('button'); b.id = 'bring'; b.textContent = 'bring it back'; b.onclick = bringBack; $('note').append(b); }
  if ($('note').textContent !== was) fitGuide();
}
const refuse = fault => { say((fault.fault === 'memory' ? '' : fault.fault + ': ') + fault.words + '. Nothing has changed.'); return false; };
// the whole state, and the page as it was in one
const stateNow = () => ({ graph: graphText, first: wakeFirst, by, trace: traceOf(eventsNow()), at, placed, events: steps.length });
function restore(was) {
  const now = [wakeFirst, by];
  [wakeFirst, by] = [was.first, was.by];
  if (!load(was.graph, was.trace, was.at, was.placed)) { [wakeFirst, by] = now; return false; }
  $('wakers').value = wakeFirst ? 'first' : '';
  return true;
}
// nothing is lost without a word: what was led is kept, and a button brings it back
function setAside(was, why) {
  // the tour's runs are nobody's: what was set aside before them still is
  if (ofTour(was)) was = givenUp || {};
  if (!was.graph || !was.events) return;
  givenUp = was;
  say(why + (was.events === 1 ? ' Your run of one event is set aside.' : ' Your run of ' + was.events + ' events is set aside.'), true);
}

// the page's state is that of these texts, at an event; the elements of a graph that stays are kept
function fill(text, same) {
  const old = nodes.slice(), gone = queues.size ? [...queues.values()] : [];
  steps.length = links.length = nodes.length = 0;
  ledger = zero();
  ledgerEnd = null;
  undo = []; curve = []; before = []; look = new Map(); at = 0;
  for (const q of gone) { q.list.length = 0; q.sig = null; changed.add(q); }
  if (!same) {
    queues.clear();
    changed.clear();
    for (const id of ['halos', 'weights', 'links', 'cores', 'ways', 'tags', 'nodes', 'msgs', 'marks']) $(id).innerHTML = '';
    drawn = []; bend = []; unit = null; base = null; pos = []; pin = 0; zoom = { k: 1, x: 0, y: 0 };
  }
  read(text);
  if (same) {
    for (const n of nodes) if (n) for (const part of ['g', 'halo', 'stop', 'ring', 'body', 'text', 'lev', 'corner', 'queues']) n[part] = old[n.v][part];
    for (const d of drawn) d.sig = null;
  }
  survey();
}
// a graph and a trace, judged by the module, are shown at an event; a refusal changes nothing
function load(graph, trace, k, places = null) {
  const text = seenOf(graph, trace), fault = faultOf(text);
  if (fault) return refuse(fault);
  if (timer) halt();
  const same = graph === graphText && by === shownBy && (!places || String(places) === String(placed));
  asking = false;
  fill(text, same);
  graphText = graph;
  if (by !== shownBy) dress();
  if (!same) placed = places && places.length === G.nodes ? places : null;
  if (placed) unit = unitOf(placed);
  offers = new Map([[G.to, choicesIn(text)]]);
  ended = hasEnded(text);
  $('seek').max = $('goto').max = G.to;
  $('pick').max = G.nodes;
  $('what').textContent = G.nodes + ' nodes, ' + G.links + ' links, ' + G.events + ' events';
  goto(k);
  only = same ? only : G.nodes > 12;
  $('example').value = Object.keys(EXAMPLES).find(name => EXAMPLES[name] === graph) || '';
  $('editit').disabled = G.nodes > EDITED;
  say('');
  if (same) { strip(); show(); } else relay();
  return true;
}
// what of the page is the protocol's
function dress() {
  shownBy = by;
  $('by').value = by;
  for (const id of ['skip', 'patient']) $(id).closest('label').hidden = !PUTS;
  $('guessing').closest('.set').hidden = !PUTS;
  document.body.classList.toggle('ruled', !by);
  $('goal').innerHTML = goals().map(([k, t]) => '<option value="' + k + '">' + t + '</option>').join('');
}
// another protocol begins a run of the network at hand
function setBy(p) {
  const was = stateNow();
  by = p;
  if (!load(graphText, traceOf([]), 0, placed)) { by = was.by; return; }
  leaveGuide();
  setAside(was, 'Another protocol.');
}
// what may come next at an event of the run
function offersAt(k) {
  if (!offers.has(k)) offers.set(k, choicesIn(seenOf(graphText, traceOf(eventsNow().slice(0, k)))));
  return offers.get(k);
}
// the event happens at the moment that is shown; another that had come there is given up, with all behind it
function lead(key) {
  // while the run plays, a click stops it
  if (timer) return halt();
  const o = offersAt(at).get(key), es = eventsNow(), k = at;
  if (!o) return;
  if (es[at] && keyOf(es[at]) === key) return guessing(key) ? guessAt(k) : move(at + 1);
  const lost = es.length - at, was = stateNow(), asks = guessing(key);
  if (!load(graphText, traceOf(es.slice(0, at).concat([o.may])), asks ? k : k + 1)) return;
  if (lost) giveUp(lost, was);
  if (asks) guessAt(k);
  ledOn();
}
function giveUp(lost, was) {
  if (givenUp && ofTour(was)) return setAside(was, '');
  givenUp = was;
  say((lost === 1 ? 'One event that came after is' : lost + ' events that came after are') + ' given up.', true);
}
function bringBack() {
  const was = givenUp;
  givenUp = null;
  if (was) restore(was);
}
function takeBack() {
  if (asking && guess && guess.own) return move(at);
  const es = eventsNow(), lost = es.length - at, was = stateNow();
  if (at && load(graphText, traceOf(es.slice(0, at - 1)), at - 1)) { if (lost) giveUp(lost, was); ledOn(); }
}
function seedNow() {
  const seed = $('seed').value.trim(), ok = /^\d{1,20}$/.test(seed) && BigInt(seed) < 1n << 64n;
  if (!ok) say('A seed is a number from 0 to 18446744073709551615.');
  return ok ? seed : null;
}
function goOn() {
  const es = eventsNow(), k = at, lost = es.length - k, was = stateNow();
  const seed = seedNow();
  if (seed === null) return;
  const text = runOf(graphText, traceOf(es.slice(0, k)), $('patient').checked, seed), fault = faultOf(text);
  if (fault) return refuse(fault);
  if (!load(graphText, text, k)) return;
  if (lost) giveUp(lost, was);
  ledOn();
  // what may come next isn't marked while the run plays
  if (at < G.to) { play(); offer(); }
}

// ---- what may come next, in the network and in the pane
const placeOf = key => key.split(' ').map(Number);
// while a guess is asked first, nothing tells which events only defer
const hides = () => PUTS && $('guessing').checked;
const wording = (key, o) => {
  const [v, p] = placeOf(key), m = p === undefined ? null : queue(v, p)[0];
  return 'Node ' + v + (m ? ' takes ' + words(m) + ' from node ' + m.from : ' wakes') + (o.waits && !hides() ? ' (it would defer it)' : '');
};
const END = () => 'The run has ended: the ' + TREE() + ' links are ' + PROTOCOLS[by].finds + '.' + (offersAt(G.to).size ? ' Messages still under way can\'t change the tree.' : '');
function offer() {
  if (ended && at === G.to && !$('note').textContent) say(END());
  else if (at < G.to && $('note').textContent === END()) say('');
  offered = timer || asking || touring() ? new Map() : offersAt(at);
  if (PUTS && $('moving').checked) offered = new Map([...offered].filter(([, o]) => !o.waits));
  if (!offered.has(pointed)) pointed = null;
  const next = at < G.to ? keyOf(eventsNow()[at]) : null;
  for (let v = 1; v <= G.nodes; v++) {
    const key = String(v), c = nodes[v].g.classList;
    c.toggle('can', offered.has(key));
    c.toggle('next', offered.has(key) && key === next);
    c.toggle('pointed', pointed === key);
  }
  for (const g of $('msgs').querySelectorAll('.msg')) {
    const [v, p, k] = g.dataset.q.split(' '), key = v + ' ' + p, can = k === '0' && offered.has(key), c = g.classList;
    c.toggle('can', can);
    c.toggle('idle', can && !!offered.get(key).waits && !hides());
    c.toggle('behind', +k > 0);
    c.toggle('next', can && key === next);
    c.toggle('pointed', can && pointed === key);
    const hit = g.querySelector('.hit');
    if (can && !hit) {
      // in the middle between its tail and its tip
      const [x, y, , , tipX, tipY, , , endX, endY] = g.firstChild.getAttribute('d').match(/-?[\d.]+/g).map(Number);
      g.append(el('circle', { class: 'hit', r: 13, cx: (x + endX) / 4 + tipX / 2, cy: (y + endY) / 4 + tipY / 2 }));
    }
    if (!can && hit) hit.remove();
  }
  list(next);
}
const LISTED = 60;
function list(next) {
  const all = [...offered], html = all.slice(0, LISTED).map(([key, o]) => '<button data-may="' + key + '" class="' + (o.waits && !hides() ? 'idle ' : '') + (key === next ? 'next ' : '') + (key === pointed ? 'pointed' : '') + '">' + wording(key, o) + (key === next ? ' (next in this run)' : '') + '</button>');
  $('may').innerHTML = timer ? '<p>The run is played.</p>' : html.join('') + (all.length > LISTED ? '<p>and ' + (all.length - LISTED) + ' more</p>' : '') || '<p>' + (asking ? 'First your guess.' : at === G.to && ended ? 'Nothing: the run has ended.' : 'Nothing.') + '</p>';
  $('maycount').textContent = timer ? '' : all.length;
}
function point(d) {
  const keys = [...offered.keys()];
  if (!keys.length) return;
  const i = keys.indexOf(pointed);
  pointed = keys[i < 0 ? (d > 0 ? 0 : keys.length - 1) : (i + d + keys.length) % keys.length];
  offer();
  $('live').textContent = wording(pointed, offered.get(pointed));
}
const showRun = show, haltRun = halt, tipOf = tip;
show = function () {
  showRun();
  const rule = $('say').querySelector('.row');
  if (rule && !by && ROWS[rule.textContent]) { rule.tabIndex = 0; rule.setAttribute('role', 'button'); rule.title = 'shows the rule'; }
  if (graphText) { offer(); guide(); keepAll(); keepTwo(); }
};
halt = function () { const was = timer; haltRun(); if (was && graphText) offer(); };
// what a message is that may be taken, or stands behind another
// after a click nothing lies over what it has changed, until the pointer has moved on
let clicked = null;
tip = function (e) {
  if (clicked && e.pointerType === 'mouse' && Math.hypot(e.clientX - clicked[0], e.clientY - clicked[1]) < 12) return;
  clicked = null;
  tipOf(e);
  const g = e.target.closest('.msg, .node'), t = $('hint');
  if (!g || t.hidden) return;
  if (g.matches('.node')) { if (g.matches('.can')) t.textContent += '. A click wakes it, a click with shift pins it.'; return; }
  const [v, p, k] = g.dataset.q.split(' ').map(Number);
  if (k > 0) t.textContent += ' It stands behind ' + (k === 1 ? 'one other' : k + ' others') + ' at node ' + v + '\'s port ' + p + '.';
  else if (g.matches('.idle')) t.textContent += ' A click delivers it; its node would defer it.';
  else if (g.matches('.can')) t.textContent += ' A click gives it to its node.';
};

// ---- the address holds the graph and the events too, as long as it stays short
const ADDRESS = 8000;
const coded = text => btoa(String.fromCharCode(...UTF8.encode(text))).replace(/\+/g, '-').replace(/\//g, '_').replace(/=/g, '');
const decoded = (text, by = TEXT) => by.decode(Uint8Array.from(atob(text.replace(/-/g, '+').replace(/_/g, '/')), c => c.charCodeAt(0)));
const short_events = es => es.map(e => e.length === 1 ? 'w' + e[0] : e.join('.')).join(',');
const long_events = text => text.split(',').filter(x => x).map(x => x[0] === 'w' ? [+x.slice(1)] : x.split('.').map(Number));
const addressOf = address, goAddressOf = goAddress;
address = function () {
  const head = addressOf();
  if (graphText.length > ADDRESS) return head;
  if (touring()) return '#tour=' + (tourAt + 1);
  const whole = head + '&g=' + coded(graphText) + '&e=' + short_events(eventsNow()) + (wakeFirst ? '&first' : '') + (by ? '&by=' + PROTOCOLS[by].name : '') + (placed ? '&p=' + placed.map(p => p.map(Math.round).join('.')).join(',') : '') + (task ? '&task=' + task.id : '');
  return whole.length > ADDRESS ? head : whole;
};
const ledIn = hash => {
  const found = /^#(\d+)[^&]*&g=([^&]*)&e=([^&]*)((?:&[^&]*)*)$/.exec(hash), more = new URLSearchParams(found ? found[4] : '');
  try { return found && { at: +found[1], graph: decoded(found[2]), events: long_events(found[3]), first: more.has('first'), by: Math.max(0, PROTOCOLS.findIndex(p => p.name === more.get('by'))), task: more.get('task'), placed: more.has('p') ? more.get('p').split(',').map(p => p.split('.').map(Number)) : null }; } catch { return null; }
};
goAddress = function (hash = location.hash) {
  if (!graphText || hash === address()) return;
  if (goGuide(hash)) return;
  const led = ledIn(hash), head = hash.split('&')[0];
  if (led && (led.graph !== graphText || led.first !== wakeFirst || led.by !== by || short_events(led.events) !== short_events(eventsNow()))) {
    if (!restore({ ...led, trace: eventsText(led.by, led.events) })) return;
  }
  if (led) setTaskOf(led);
  history.replaceState(null, '', head);
  goAddressOf(head);
};

// ---- graphs and traces from elsewhere, and kept
const EXAMPLES = {
  'triangle': 'p sp 3 3\na 1 2 1\na 2 3 2\na 1 3 3\n',
  'two pairs': 'p sp 4 3\na 1 2 1\na 3 4 2\na 2 3 3\n',
  'path of 5': 'p sp 5 4\na 1 2 1\na 2 3 2\na 4 5 3\na 3 4 4\n',
  'star of 5': 'p sp 5 4\na 1 2 1\na 1 3 2\na 1 4 3\na 1 5 4\n',
  'ring of 6': 'p sp 6 6\na 1 2 4\na 2 3 1\na 3 4 5\na 4 5 2\na 5 6 6\na 6 1 3\n',
  'two components': 'p sp 6 6\na 1 2 3\na 2 3 1\na 1 3 2\na 4 5 6\na 5 6 4\na 4 6 5\n',
  'eight nodes': 'p sp 8 10\na 1 2 1\na 3 4 2\na 5 6 3\na 7 8 4\na 2 3 5\na 6 7 6\na 4 5 7\na 1 8 8\na 1 4 9\na 5 8 10\n',
  'grid of 9': 'p sp 9 12\na 1 2 5\na 2 3 9\na 4 5 2\na 5 6 7\na 7 8 11\na 8 9 1\na 1 4 8\na 2 5 3\na 3 6 12\na 4 7 6\na 5 8 10\na 6 9 4\n',
};
// what a graph's comments say of it: who may wake, and where its nodes stand
const COMMENTS = /^c (?:wake|place) .*\n/gm;
function commented() {
  const head = (wakeFirst ? 'c wake first\n' : '') + (placed ? placed.map((p, i) => 'c place ' + (i + 1) + ' ' + p.map(Math.round).join(' ') + '\n').join('') : '');
  return head + graphText;
}
function takeGraph(text, places = null) {
  const was = stateNow(), wake = /^c wake (all|first)\s*$/m.exec(text), told = [...text.matchAll(/^c place (\d+) (\d+) (\d+)\s*$/gm)];
  for (const [, v, x, y] of told) (places ??= [])[v - 1] = [+x, +y];
  if (wake) wakeFirst = wake[1] === 'first';
  if (!load(text.replace(COMMENTS, ''), traceOf([]), 0, places)) { wakeFirst = was.first; return false; }
  $('wakers').value = wakeFirst ? 'first' : '';
  leaveGuide();
  setAside(was, 'Another network.');
  return true;
}
// a run is taken with its protocol; one that fits the other wake set alone is taken with that, and it is said
function takeTrace(text) {
  const was = stateNow();
  by = protocolIn(text);
  const fault = faultOf(seenOf(graphText, text));
  if (fault) {
    wakeFirst = !wakeFirst;
    if (faultOf(seenOf(graphText, text))) { [wakeFirst, by] = [was.first, was.by]; return refuse(fault); }
    $('wakers').value = wakeFirst ? 'first' : '';
  }
  load(graphText, text, 0, placed);
  ledOn();
  if (by !== was.by) leaveTask();
  const why = fault ? 'This run fits only if ' + (wakeFirst ? 'the first node of each component' : 'all nodes') + ' may wake by themselves, so "wake" is changed.' : '';
  setAside(was, why);
  if (why && !$('note').textContent) say(why);
  return true;
}
function take(text) {
  $('start').close();
  if (/^\s*hand-in\b/.test(text)) return openHandIn(text);
  return /^\s*trace\b/.test(text) ? takeTrace(text) : takeGraph(text);
}
const takeFile = file => file.text().then(take);
function keep(name, text) {
  const a = document.createElement('a');
  a.href = URL.createObjectURL(new Blob([text], { type: 'text/plain' }));
  a.download = name;
  a.click();
  setTimeout(() => URL.revokeObjectURL(a.href), 1000);
}
function setWakers(value) {
  const was = stateNow();
  wakeFirst = value === 'first';
  if (faultOf(seenOf(graphText, was.trace))) { if (load(graphText, traceOf([]), 0)) setAside(was, 'The run does not fit this wake set.'); } else load(graphText, was.trace, was.at);
  leaveTask();
}

// ---- a hundred seeds of the graph at hand: what their runs come to
const SEEDS = 100, MEASURES = [['messages sent', l => l.sent.reduce((a, b) => a + b)], ['deferrals', l => l.requeued], ['events', l => l.ledger]];
const measures = () => MEASURES.filter(([name]) => PUTS || name !== 'deferrals').concat(KINDS.map((k, i) => [NAMES[k], l => l.sent[i]]));
const ledgerOf = text => { const i = text.lastIndexOf('{"ledger":'); return JSON.parse(text.slice(i, text.indexOf('\n', i))); };
function hundred() {
  const patient = PUTS && $('patient').checked, graph = graphText, found = [];
  $('figures').innerHTML = '<p>Seed 0 ..</p>';
  $('many').showModal();
  const next = () => {
    if (!$('many').open || graph !== graphText) return;
    const seed = found.length, trace = runOf(graph, traceOf([]), patient, seed), fault = faultOf(trace);
    if (fault) { $('figures').innerHTML = '<p>' + fault.words + '</p>'; return; }
    found.push(ledgerOf(seenOf(graph, trace)));
    if (found.length < SEEDS) { if (seed % 5 === 0) $('figures').firstChild.textContent = 'Seed ' + seed + ' ..'; setTimeout(next, 0); } else printSeeds(found, patient);
  };
  setTimeout(next, 0);
}
function printSeeds(found, patient) {
  const row = ([name, of]) => {
    const all = found.map(of), low = Math.min(...all), high = Math.max(...all), sum = all.reduce((a, b) => a + b), open = x => '<button data-seed="' + all.indexOf(x) + '" title="opens the run of seed ' + all.indexOf(x) + '">' + x + '</button>';
    return '<tr><td>' + name + '</td><td class="n">' + open(low) + '</td><td class="n">' + (sum / all.length).toFixed(2) + '</td><td class="n">' + open(high) + '</td></tr>';
  };
  const sends = found.map(MEASURES[0][1]), low = Math.min(...sends), counts = [];
  for (const x of sends) counts[x - low] = (counts[x - low] || 0) + 1;
  const most = Math.max(...counts.filter(x => x)), bars = counts.length, w = Math.min(60, 520 / bars), last = low + bars - 1, mid = (i, x) => '<text x="' + (40 + (i + .5) * w).toFixed(1) + '" y="112">' + x + '</text>';
  $('figures').innerHTML = '<p>Seeds 0 to ' + (SEEDS - 1) + ', ' + 'by ' + PROTOCOLS[by].by + (patient ? ', skipping useless deliveries' : ', among all events') + '. At most ' + G.bound + ' messages are sent.</p><table><tr><th></th><th class="n">fewest</th><th class="n">mean</th><th class="n">most</th></tr>' + measures().map(row).join('') + '</table>'
    + (bars < 2 ? '<p>All ' + found.length + ' runs send ' + low + ' messages.</p>' : '<p>How many runs send how many messages:</p><svg viewBox="0 0 570 120" role="img" aria-label="a bar for each number of messages sent">' + Array.from(counts, (x, i) => x ? '<rect x="' + (40 + i * w + .5).toFixed(1) + '" width="' + Math.max(1, w - 1).toFixed(1) + '" y="' + (96 - 84 * x / most).toFixed(1) + '" height="' + (84 * x / most).toFixed(1) + '"><title>' + (low + i) + ' messages: ' + x + ' runs</title></rect>' : '').join('')
      + '<path d="M38 10V96H566"/><text class="left" x="34" y="16">' + most + '</text><text class="left" x="34" y="98">0</text>' + mid(0, low) + mid(bars - 1, last) + (bars > 4 ? mid((bars - 1) / 2, ((low + last) / 2).toFixed(0)) : '') + '</svg>');
  $('figures').onclick = e => {
    if (!e.target.dataset.seed) return;
    $('many').close();
    $('seed').value = e.target.dataset.seed;
    const was = stateNow();
    if (load(graphText, runOf(graphText, traceOf([]), patient, e.target.dataset.seed), 0)) { ledOn(); setAside(was, ''); }
  };
}

// ---- clicks and keys
const MOVES = [' ', 'Home', 'End', 'PageUp', 'PageDown', 'ArrowUp', 'ArrowDown', 'Backspace', 'e', 'q', 'r', 'w'];
function hands() {
  const key = g => g.dataset.q.split(' ').slice(0, 2).join(' ');
  $('msgs').onclick = e => { const g = e.target.closest('.msg.can'); if (g && !fingers.moved) { clicked = [e.clientX, e.clientY]; $('hint').hidden = true; lead(key(g)); } };
  const pinned = $('nodes').onclick;
  $('nodes').onclick = e => { const g = e.target.closest('.node.can'); if (g && !fingers.moved && !e.shiftKey) { clicked = [e.clientX, e.clientY]; $('hint').hidden = true; lead(g.dataset.v); } else pinned(e); };
  $('may').onclick = e => { if (e.target.dataset.may) lead(e.target.dataset.may); };
  $('msgs').onpointerover = $('msgs').onpointerdown = $('nodes').onpointerover = tip;
  $('undo').onclick = takeBack;
  $('on').onclick = goOn;
  $('moving').onchange = offer;
  $('example').innerHTML = '<option value="">your own</option>' + Object.keys(EXAMPLES).map(x => '<option>' + x + '</option>').join('');
  $('example').onchange = e => { const text = EXAMPLES[e.target.value]; if (text) take(text); else $('drawit').click(); };
  $('wakers').onchange = e => setWakers(e.target.value);
  for (const id of ['by', 'allby', 'oneby', 'otherby']) $(id).innerHTML = PROTOCOLS.map((p, i) => '<option value="' + i + '">' + p.title + '</option>').join('');
  $('by').onchange = e => setBy(+e.target.value);
  $('open').onclick = () => $('file').click();
  $('file').onchange = e => { const file = e.target.files[0]; e.target.value = ''; if (file) takeFile(file); };
  $('savegraph').onclick = () => keep('graph.gr', commented());
  $('savetrace').onclick = () => keep('run.trace', traceOf(eventsNow()));
  $('hundred').onclick = hundred;
  $('closemany').onclick = () => $('many').close();
  alls();
  twos();
  boards();
  guides();
  addEventListener('paste', e => { const text = e.clipboardData.getData('text'); if (!e.target.matches('input, textarea') && text.trim()) { e.preventDefault(); take(text); } });
  addEventListener('dragover', e => e.preventDefault());
  addEventListener('drop', e => { e.preventDefault(); const file = e.dataTransfer.files[0], text = e.dataTransfer.getData('text'); if (file) takeFile(file); else if (text.trim()) take(text); });
  Object.assign(ACTS, { m: () => point(1), M: () => point(-1), Backspace: takeBack, r: () => { if (!task) goOn(); } });
  KEYS.unshift(['m, M', 'goes through what may come next'], ['Enter', 'that event happens'], ['Backspace', 'takes the last event back'], ['r', 'plays on by the seed']);
  // keys of a dialog are its own; Enter is the node's that may wake, or the event's that is pointed to
  addEventListener('keydown', e => {
    if (document.querySelector('dialog[open]:not(#keys)')) {
      if ((e.key === 'Delete' || e.key === 'Backspace') && $('draw').open && !e.target.matches('input')) removeHeld();
      if (!$('keys').open) e.stopImmediatePropagation();
      return;
    }
    if (touring() && (e.key === 'ArrowRight' || e.key === 'ArrowLeft') && !e.target.matches('input, select')) { e.preventDefault(); e.stopImmediatePropagation(); return goTour(tourAt + (e.key === 'ArrowRight' ? 1 : -1)); }
    // the run of a tour's step stays at the moment that the step speaks of
    if (touring() && MOVES.includes(e.key) && !e.target.matches(e.key === ' ' ? 'button, select, input' : 'select, input')) { e.preventDefault(); e.stopImmediatePropagation(); return; }
    if (e.key === 'Enter' && e.target.matches('.row')) { e.preventDefault(); e.stopImmediatePropagation(); return openRule(e.target.textContent); }
    if (e.key !== 'Enter' || e.ctrlKey || e.altKey || e.metaKey || $('keys').open || e.target.matches('button, select, input')) return;
    const on = e.target.matches('.node.can') ? e.target.dataset.v : pointed;
    if (on === null) return;
    e.preventDefault();
    e.stopImmediatePropagation();
    lead(on);
  }, true);
}
