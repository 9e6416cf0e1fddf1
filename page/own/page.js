// ---- the page: what is typed, run, shown
const $ = id => document.getElementById(id);
const NETWORKS = {
  triangle: 'p sp 3 3\na 1 2 1\na 2 3 2\na 1 3 3\n',
  'ring of six': 'p sp 6 6\na 1 2 4\na 2 3 1\na 3 4 5\na 4 5 2\na 5 6 6\na 6 1 3\n',
  'path of five': 'p sp 5 4\na 1 2 1\na 2 3 2\na 4 5 3\na 3 4 4\n',
  'grid of six': 'p sp 6 7\na 1 2 4\na 1 3 6\na 2 4 1\na 3 4 5\na 3 5 7\na 4 6 2\na 5 6 3\n',
};
const SUITS = { echo: { wake: 'first', end: 'quiet', check: 'spanning' }, ghs: { wake: 'all', end: 'halted', check: 'tree' } };
const many = (n, word) => n + ' ' + word + (n === 1 ? '' : 's');
const escaped = s => String(s).replace(/[&<>"]/g, c => ({ '&': '&amp;', '<': '&lt;', '>': '&gt;', '"': '&quot;' })[c]);

const proved = (f, graph, trace) => answered(([g, t], bytes) => f(here.wake === 'first' ? 1 : 0, 0, ...g, ...t, ...bytes), [graph, trace]);

// ---- what is at hand: the graph, the rules or a book, and the run that is looked at
const here = { graphText: null, graph: null, rulesText: null, rules: null, asked: null, book: null, net: null, wake: 'all' };
const seen = trace => proved(box.ghs_web_seen, here.graphText, trace);
function readGraph() {
  const text = $('graph').value;
  if (text === here.graphText) return;
  const told = proved(box.ghs_web_seen, text, 'trace 0\n');
  if (told.startsWith('{"fault"')) throw new Refused('The graph is refused: ' + JSON.parse(told).words + '.');
  const lines = linesOf(told), nodes = lines[0].nodes;
  if (nodes > LIMITS.nodes) throw new Refused('The graph has ' + nodes + ' nodes, and this page takes at most ' + LIMITS.nodes + '.');
  Object.assign(here, { graphText: text, graph: new Graph(nodes, lines.filter(x => x.link)), rules: null, net: null, places: null });
  const was = $('wake').value;
  $('wake').innerHTML = '<option value="all">all nodes</option><option value="first">the first of each component</option>' + Array.from({ length: nodes }, (_, i) => '<option value="' + (i + 1) + '">node ' + (i + 1) + '</option>').join('');
  $('wake').value = was;
  if ($('wake').selectedIndex < 0) $('wake').value = 'all';
}
// the rules for the graph at hand; other rules or another graph begin another book
async function ready() {
  readGraph();
  here.wake = $('wake').value;
  const text = $('rules').value;
  if (!here.book && text !== here.rulesText) { here.asked?.close(); here.asked = new Asked(LIBRARY, here.rulesText = text); here.rules = null; }
  if (!here.rules) here.net = null;
  if (!here.rules) {
    const rules = new Rules(here.graph, here.book ? null : here.asked, here.book || new Map());
    here.last = rules;
    here.rules = await rules.begin();
  }
  here.rules.faults.clear();
  keep();
  return here.rules;
}
const options = () => ({ wake: here.wake, end: $('end').value, check: $('check').value, fails: $('fault').value === 'overtake' ? 1 : $('fault').value, limit: Math.max(1, Math.min(500000, +$('limit').value || 1)) });
const seedNow = () => { const s = $('seed').value; if (!/^\d{1,20}$/.test(s) || BigInt(s) >= 1n << 64n) throw new Refused('A seed is a whole number below 2^64.'); return s; };
function keep() { try { for (const id of ['rules', 'graph']) sessionStorage.setItem('own.' + id, id === 'rules' && (here.book || here.off) ? here.book && here.rulesText || '' : $(id).value); } catch { /* then nothing is kept */ } }

// ---- commands, one at a time
let busy = false, stopped = false;
const pause = {
  next: 0,
  what: '',
  due() { return performance.now() > this.next; },
  async now(what = this.what) {
    if (what) tell('', '<p>' + escaped(what) + ' so far.</p>');
    await new Promise(done => setTimeout(done));
    if (stopped) throw new Refused('Stopped' + (what ? ' after ' + what : '') + '; nothing is said of the rest.');
    this.next = performance.now() + 60;
  },
};
// where an assumption of the network is switched off, only the search for what breaks and a run by hand know of it
function allow() { for (const b of document.querySelectorAll('#acts button')) b.disabled = b.id === 'stop' || !!here.off?.net && b.id !== 'hand'; }
function tell(how, html) { $('verdict').className = how; $('verdict').innerHTML = html; }
const table = rows => '<table>' + rows.filter(r => r[1] !== undefined && r[1] !== '').map(([a, b]) => '<tr><th>' + a + '</th><td>' + escaped(b) + '</td></tr>').join('') + '</table>';
const orderText = events => events.length ? (events.length > 1000 ? '.. the last 1000: ' : '') + events.slice(-1000).map(eventText).join('; ') : 'none: before the first event';
async function command(f) {
  if (busy) return;
  busy = true;
  stopped = false;
  Object.assign(pause, { next: performance.now() + 60, what: '' });
  for (const b of document.querySelectorAll('#acts button')) b.disabled = b.id !== 'stop';
  document.body.dataset.busy = 'yes';
  try {
    const rules = await ready();
    await f(rules, options());
    await rules.again();
  } catch (e) {
    if (e instanceof NodeFault) await tellFault(e);
    else if (e instanceof Refused) tell('wrong', '<p>' + escaped(e.message) + '</p>');
    else tell('wrong', '<p>This page has a fault of its own: ' + escaped(e.message) + '</p>');
  } finally {
    busy = false;
    allow();
    delete document.body.dataset.busy;
    show();
  }
}
async function tellFault(e) {
  const events = e.events || [], at = failures(events);
  tell('wrong', '<p><b>' + e.name + '</b>: ' + escaped(e.message) + '.</p>' + (at.length ? '<p>' + failedText(at) + '</p>' : '') + table([
    ['question', e.question], ['answer', e.answer === undefined ? 'none' : e.answer],
    ['events that led there', events.length ? events.length + ': ' + orderText(events) : orderText(events)]]));
  if (events.length && here.rules) await open(events.slice(0, -1));
}
function opening() {
  here.breaks = null;
  return here.net = new Net(here.rules, here.wake, here.off?.net);
}
async function open(events) {
  opening();
  for (const e of events) await here.net.play(e);
}
const listed = list => list.length ? list.slice(0, 24).join(', ') + (list.length > 24 ? ', and ' + (list.length - 24) + ' more' : '') : 'none';
const marksText = m => listed(m.both) + (m.one.length ? '; at one end alone: ' + listed(m.one) : '');
const ENDS = { halted: 'ended, each component with a halted node', quiet: 'ended, and nothing may happen any more', stuck: 'came to a standstill: nothing may happen any more, and not every component has a node that has halted', turns: 'did not end within ' + LIMITS.turns + ' events, or sent more than ' + LIMITS.messages + ' messages' };
async function runOne(rules, o) {
  const net = new Net(rules, o.wake), seed = seedNow();
  here.net = net;
  tell(...cameTo('The run of seed ' + seed, net, await runBy(net, seed, o.end, LIMITS.turns, pause), o.check));
}
const counted = net => many(net.at, 'event') + ', ' + many(net.total, 'message') + ', ' + net.deferred + ' deferred';
// what a run came to at the moment that is looked at, which is its end
function cameTo(head, net, end, check) {
  const cut = end === 'stuck' || end === 'turns', wrong = cut ? null : wrongAtEnd(net.graph, net.state, check);
  return [wrong || cut ? 'wrong' : '', '<p>' + head + ' ' + ENDS[end] + ': ' + counted(net) + '.</p>' + (wrong ? '<p>It ends wrong: ' + escaped(wrong) + '.</p>' : '') +
    table([['messages', net.rules.kinds.map(k => k + '=' + net.sent[k]).join(' ')], ['marked links', marksText(net.marked())], ['minimum spanning forest', listed(net.graph.forest)], ['questions', net.rules.book.size + ' in the book']])];
}

// ---- a run that is led by hand, event by event
// what may happen next: before there is a run, the wakes of its opening
const mayNext = () => here.net ? here.net.ready() : here.graph ? wakers(here.graph, $('wake').value).flatMap((may, v) => may ? [[v, null]] : []) : [];
function byHand(rules, o, why = '') {
  opening();
  tellLed(o, why);
}
// an event that is chosen takes the place of all that followed the moment that is looked at
function lead(event) {
  const was = here.net;
  return command(async (rules, o) => {
    if (was && was !== here.net) return byHand(rules, o, 'The rules or the graph have changed, so a run begins anew. ');
    await choose(here.net || opening(), event);
    tellLed(o);
  });
}
async function choose(net, event) {
  const steps = net.steps;
  if (!net.lawful(event)) throw new Refused('This event may not happen at this moment.');
  if (net.at >= LIMITS.turns || net.total > LIMITS.messages) throw new Refused('The run is too long to be led on.');
  net.cut();
  try { await net.play(event); } catch (e) {
    if (e instanceof NodeFault) e.events = [...net.events(), event];
    net.steps = steps;
    throw e;
  }
  if (here.breaks?.at >= net.at) here.breaks = null;
}
// the first moment up to this one at which the run is over, if it is
function overAt(net, end) {
  const now = net.at, halts = net.steps.slice(0, now).flatMap((s, i) => s.told.halts && !isOn(s.old, 'halted') ? [i + 1] : []);
  const first = [0, ...halts].find(k => { net.goto(k); return net.over(end); });
  net.goto(now);
  return first;
}
function tellLed(o, why = '') {
  const net = here.net, now = net.at, over = overAt(net, o.end), head = 'The run that is led by hand', quiet = !net.ready().length;
  if (over === undefined && !quiet) return tell('', '<p>' + why + head + ': ' + counted(net) + '. Choose what happens next.</p>');
  net.goto(over ?? now);
  const [how, words] = cameTo(why + head, net, over !== undefined ? 'halted' : o.end === 'halted' ? 'stuck' : 'quiet', o.check);
  net.goto(now);
  tell(how, words + (over < now ? '<p>It has gone on to event ' + now + (quiet ? ', and nothing may happen any more' : '') + '.</p>' : ''));
}
const button = (event, text, name) => '<button data-event="' + escaped(JSON.stringify(event)) + '"' + (name ? ' title="' + escaped(name) + '" aria-label="' + escaped(name) + '"' : '') + '>' + escaped(text) + '</button>';
function lineOfNext([v, p]) {
  if (p === null) return '<li>' + button([v, p], 'node ' + v + ' wakes') + '</li>';
  const queue = here.net.queues[v][p], on = ' on port ' + p + ', from node ' + here.graph.ports[v][p].far;
  const fails = !$('fails').checked ? [] : [[[v, p, 'lose'], 'lose', queue[0] + ' to node ' + v], [[v, p, 'twice'], 'twice', queue[0] + ' to node ' + v], ...(queue.length > 1 ? [[[v, p, 1], 'overtake', 'node ' + v + ' takes ' + queue[1] + ' past ' + queue[0]]] : [])];
  return '<li>' + button([v, p], 'node ' + v + ' takes ' + queue[0] + on) + fails.map(([event, word, what]) => ' ' + button(event, word, word + ': ' + what + on)).join('') + '</li>';
}
function showNext(next) {
  const buttons = () => [...$('next').querySelectorAll('button')], at = buttons().indexOf(document.activeElement);
  $('next').innerHTML = next.length ? '<ol>' + next.map(lineOfNext).join('') + '</ol>' : 'nothing';
  if (at >= 0) (buttons()[at] || buttons().at(-1))?.focus({ preventScroll: true });
}
// in the list and in the drawing
function leadBy(e) {
  const at = e.target.closest('[data-event]');
  if (at) lead(JSON.parse(at.dataset.event));
}
async function hundred(rules, o) {
  const ends = {}, marks = new Map(), sums = [];
  for (let seed = 0; seed < 100; seed++) {
    pause.what = seed + ' of 100 seeds';
    const net = new Net(rules, o.wake), end = await runBy(net, seed, o.end, LIMITS.turns, pause);
    ends[end] = (ends[end] || 0) + 1;
    const m = net.marked(), wrong = end === 'halted' || end === 'quiet' ? wrongAtEnd(net.graph, net.state, o.check) : ENDS[end], key = JSON.stringify(m);
    if (!marks.has(key)) marks.set(key, { text: marksText(m), seed, many: 0, forest: !m.one.length && m.both.join() === net.graph.forest.join(), wrong });
    marks.get(key).many++;
    marks.get(key).wrong ||= wrong;
    sums.push([net.total, seed]);
  }
  const least = sums.reduce((a, b) => b[0] < a[0] ? b : a), most = sums.reduce((a, b) => b[0] > a[0] ? b : a), button = seed => ' <button data-seed="' + seed + '">seed ' + seed + '</button>';
  const right = [...marks.values()].filter(m => m.forest).reduce((n, m) => n + m.many, 0);
  tell([...marks.values()].some(m => m.wrong) ? 'wrong' : '', '<p>Seeds 0 to 99: ' + Object.entries(ends).map(([k, n]) => n + ' ' + ENDS[k]).join('; ') + '.</p><p>' + (least[0] === most[0] ? least[0] : least[0] + button(least[1]) + ' to ' + most[0] + button(most[1])) + ' messages. The marked links are the minimum spanning forest in ' + right + ' of 100.</p>' +
    '<table><tr><th>seeds</th><th>marked links</th><th></th></tr>' + [...marks.values()].map(m => '<tr><td>' + m.many + '</td><td>' + escaped(m.text) + (m.forest ? ' (the minimum spanning forest)' : '') + (m.wrong ? '; wrong: ' + escaped(m.wrong) : '') + '</td><td>' + button(m.seed) + '</td></tr>').join('') + '</table>');
}
const between = (least, most) => least === most ? least : least + ' to ' + most;
const tooMany = told => '<p>There are more than ' + told.states + ' states. The search stops here and says nothing of the rest: take a smaller network, or allow more states.</p>';
const FAILS = { lose: 'loses one message', twice: 'delivers one message twice', 1: 'lets one message overtake the one in front of it' };
async function orders(rules, o) {
  const told = await allOrders(rules, o, pause), may = o.fails ? '<p>In each of these orders the network may fail once: it ' + FAILS[o.fails] + '. Nothing that is proved holds of that.</p>' : '';
  if (told.many) return tell('wrong', tooMany(told) + may);
  if (told.wrong) {
    await open(told.way);
    return tell('wrong', '<p>An order of ' + many(told.way.length, 'event') + ' ends wrong: ' + escaped(told.wrong) + '. No shorter order does.</p>' + may + table([['order', orderText(told.way)], ['states seen', told.states]]));
  }
  if (told.lost) {
    await open(told.way);
    return tell('wrong', (told.way.length ? '<p>After an order of ' + many(told.way.length, 'event') + ' no order ends any more. No shorter order leads there.</p>' + table([['order', orderText(told.way)], ['states', told.states]]) : '<p>No order of this network ends: ' + many(told.states, 'state') + '.</p>') + may);
  }
  const sums = told.ends.map(c => c.reduce((a, b) => a + b, 0));
  told.ends.sort((a, b) => a.reduce((x, y) => x + y, 0) - b.reduce((x, y) => x + y, 0));
  tell('', '<p>All orders of this network: ' + many(told.states, 'state') + ', ' + many(told.events, 'event') + ' tried, and each order that ends is right. They end with ' + between(Math.min(...sums), Math.max(...sums)) + ' messages.</p>' + may +
    table(told.ends.slice(0, 40).map(c => [c.reduce((a, b) => a + b, 0), rules.kinds.map((k, i) => k + '=' + c[i]).join(' ')])));
}
const saidKind = k => k === 'changeroot' ? 'ChangeRoot' : k[0].toUpperCase() + k.slice(1);
const said = m => { const i = m.indexOf('('); return i < 0 ? saidKind(m) : saidKind(m.slice(0, i)) + m.slice(i).replace(/,/g, ', ').replace('(-)', '(nothing)'); };
const reaction = (v, told, halts) => [told.waits ? 'the message waits' : '', told.sends.length ? 'sends ' + told.sends.map(([p, m]) => said(m) + ' to node ' + here.graph.ports[v][p].far).join(', ') : '', halts ? 'halts' : ''].filter(x => x).join(', and ') || 'sends nothing';
async function tellDifference(d, head) {
  const told = linesOf(seen('trace 0\n')).find(x => x.protocol), level = d.m ? (/\((\d+)/.exec(d.m) || [])[1] : undefined, phase = told.phases.find(x => x.phase === d.before.phase);
  const why = d.proved.waits && told.waits[d.proved.row], mark = d.p === null ? '' : d.before.marks[d.p] || 'basic';
  // a message that wakes the node meets what it has become by waking, as the row's words have it
  const node = d.before.phase === 'sleeping' ? { ...d.before, phase: 'found', mark: d.p === 0 ? 'branch' : mark } : { ...d.before, mark };
  // where the node gives no answer the run is shown to the event before
  await open(d.told.fault ? d.way.slice(0, -1) : d.way);
  const number = d.shortest ? d.event : d.way.length;
  tell('wrong', '<p>' + head + '</p>' + table([
    ['event ' + number, 'node ' + d.v + (d.before.phase === 'sleeping' ? ', asleep' : ', ' + phase.name + ' at level ' + d.before.level) + ', ' + (d.p === null ? 'wakes by itself' : 'takes ' + said(d.m) + ' on port ' + d.p + ', from node ' + here.graph.ports[d.v][d.p].far)],
    ['by row ' + d.proved.row, reaction(d.v, d.proved, d.proved.halts)],
    ['your node', d.told.fault ? 'gives no answer: ' + d.told.fault.name + ': ' + d.told.fault.message : reaction(d.v, d.told, d.told.halts && !isOn(d.old, 'halted'))],
    ['the row', told.rows[d.proved.row]],
    ['it waits', why ? why.replace(/\{(\w+)\.(\w+)\}/g, (_, of, x) => of === 'message' ? level : node[x] ?? '-') : undefined],
    ['your node before it', d.old],
    [(d.shortest ? 'a shortest order' : 'its causes alone') + ', ' + many(d.way.length, 'event'), orderText(d.way)]]));
}
async function compare(rules, o) {
  const rows = new Set();
  let events = 0, cut = 0;
  const seeds = [...new Set([String(seedNow()), ...Array.from({ length: 100 }, (_, i) => String(i))])];
  for (const [i, seed] of seeds.entries()) {
    pause.what = i + ' of ' + seeds.length + ' seeds';
    const net = new Net(rules, o.wake);
    let fault = null;
    try { if (await runBy(net, seed, 'halted', LIMITS.compared, pause) === 'turns') cut++; } catch (e) { if (!(e instanceof NodeFault)) throw e; fault = e; }
    const d = await besideRun(rules, fault ? fault.events : net.events(), seen, rows);
    if (d.way) return tellDifference(d, 'Your node differs from the proved node at event ' + d.event + ' of the run of seed ' + escaped(seed) + '; its causes alone are a run of ' + many(d.way.length, 'event') + '.');
    if (fault) throw fault;
    events += d.events;
    if (pause.due()) await pause.now();
  }
  tell('', '<p>Your node reacts as the proved node in all ' + events + ' events of ' + seeds.length + ' seeds; ' + rows.size + ' of 23 rows were met.' + (cut ? ' The runs of ' + many(cut, 'seed') + ' were cut at ' + LIMITS.compared + ' events.' : '') + '</p>');
}
async function compareAll(rules, o) {
  const rows = new Set(), d = await besideAll(rules, o, seen, rows, pause);
  if (d.way) return tellDifference(d, 'Your node differs from the proved node. No shorter order shows it.');
  if (d.many) return tell('wrong', tooMany(d));
  tell('', '<p>Your node reacts as the proved node on every order of this network: ' + many(d.states, 'state') + ', ' + many(d.events, 'event') + '; ' + rows.size + ' of 23 rows were met.</p>');
}

// ---- a rule, or an assumption of the network, that is switched off
const ruleNamed = name => WHY.rules.find(r => r.name === name);
const graphText = links => { const l = links.split(',').map((x, i) => { const [ends, weight] = x.split('='); return [...ends.split('-').map(Number), weight || i + 1]; }); return 'p sp ' + Math.max(...l.flatMap(x => x.slice(0, 2))) + ' ' + l.length + '\n' + l.map(x => 'a ' + x.join(' ') + '\n').join(''); };
// the rules of GHS with its lines changed; they have another name, which is in each trace and each book
const rulesWithout = rule => (rule.edits || []).reduce((text, [old, by]) => text.replace(old, () => by), EXAMPLES.ghs).replace('class Ghs ', 'class NotGhs ');
// the whole lines that a rule's edits take away and put there
function changedLines(rule) {
  const out = [];
  let text = EXAMPLES.ghs;
  for (const [old, by] of rule.edits || []) {
    const at = text.indexOf(old), from = text.lastIndexOf('\n', at) + 1, to = (text + '\n').indexOf('\n', at + old.length);
    const was = text.slice(from, to).split('\n'), now = (text.slice(from, at) + by + text.slice(at + old.length, to)).split('\n');
    while (was.length && was[0] === now[0]) { was.shift(); now.shift(); }
    while (was.length && was.at(-1) === now.at(-1)) { was.pop(); now.pop(); }
    out.push(...was.map(x => ['del', x]), ...now.map(x => ['ins', x]));
    text = text.replace(old, () => by);
  }
  return out.filter(([, line]) => line.trim());
}
const NOT = 'This is NOT the algorithm';
function showRule() {
  const rule = ruleNamed($('rule').value);
  $('smallest').disabled = $('off').disabled = !rule;
  $('off').textContent = here.off && rule === here.off ? 'search again' : 'switch it off';
  $('rulewords').innerHTML = rule ? '<b>' + escaped(rule.rule) + '</b> Switched off: ' + escaped(rule.off) : '';
  $('edit').hidden = !rule?.edits;
  $('edit').innerHTML = rule ? changedLines(rule).map(([tag, line]) => '<' + tag + '>' + escaped(line.trim()) + '</' + tag + '>').join('') : '';
}
function switched(rule) {
  here.off = rule;
  here.breaks = null;
  if (!busy) allow();
  $('on').hidden = !rule;
  markOdd();
  showRule();
}
const failedText = at => 'The network has failed at event' + (at.length > 1 ? 's ' : ' ') + listed(at) + ': nothing that is proved holds of this run.';
// marks the page as long as a rule is off, or the run has an event at which the network has failed
function markOdd() {
  const rule = here.off, at = here.net ? failures(here.net.events()) : [], words = [];
  if (rule) words.push(NOT + '. Switched off: ' + rule.rule);
  if (at.length) words.push(failedText(at));
  document.documentElement.classList.toggle('off', words.length > 0);
  $('odd').hidden = !words.length;
  $('odd').textContent = words.join(' ');
  $('claim').textContent = rule ? NOT + ': a rule is switched off. Nothing that this page shows of it is proved.' : at.length ? 'The network has failed in this run: nothing that is proved holds of it.' : here.claim;
  $('traceodd').hidden = !at.length;
}
function switchOn() {
  if (busy) return;
  switched(null);
  $('rules').value = EXAMPLES.ghs;
  here.net = null;
  tell('', '');
  show();
}
function takeSmallest() {
  const rule = ruleNamed($('rule').value);
  if (busy || !rule) return;
  $('graph').value = graphText(rule.graph);
  here.fresh();
}
function switchOff() {
  const rule = ruleNamed($('rule').value);
  if (busy || !rule) return;
  if (here.book) leaveBook();
  switched(rule);
  if (!/class (Not)?Ghs /.test($('rules').value)) suit('ghs');
  $('rules').value = rulesWithout(rule);
  // to the first line that is changed
  const now = $('rules').value, was = EXAMPLES.ghs.replace('class Ghs ', 'class NotGhs '), same = [...now].findIndex((c, i) => c !== was[i]), lines = text => text.split('\n').length;
  $('rules').scrollTop = same < 0 ? 0 : Math.max(0, lines(now.slice(0, same)) - 5) * $('rules').scrollHeight / lines(now);
  here.net = null;
  command(breaks);
}
// the search, in a Worker: it has the rules themselves, and the proved module
async function searchOff({ rules, nodes, links, o, bent, bytes, graph, first }) {
  const program = new OwnProgram((0, eval)('"use strict";' + rules + '\n;NotGhs')), known = await new Rules(new Graph(nodes, links), { ask: async q => program.answer(q) }).begin();
  const pause = { next: 0, due() { return performance.now() > this.next; }, async now(states) { ownPost({ states }); this.next = performance.now() + 100; } };
  const told = await whatBreaks(known, o, bent, pause);
  await startBox(bytes);
  ownPost({ told, right: first === null ? null : provedAll(graph, first, o.limit) });
}
const searcher = () => LIBRARY + $('search').textContent + searchOff + '\nself.onmessage = e => searchOff(e.data).catch(e => ownPost({ amiss: e.message }));\n';
function searched(what) {
  return new Promise((done, fail) => {
    const url = URL.createObjectURL(new Blob([searcher()], { type: 'text/javascript' })), worker = new Worker(url);
    let so_far = '';
    const end = f => { worker.terminate(); URL.revokeObjectURL(url); here.halt = null; f(); };
    here.halt = () => end(() => fail(new Refused('Stopped' + (so_far && ' after ' + so_far) + '; nothing is said of the rest.')));
    worker.onmessage = ({ data }) => {
      if (data.told) end(() => done(data));
      else if (data.amiss) end(() => fail(new Refused(data.amiss)));
      else if (data.states) tell('wrong', '<p><b>' + NOT + '.</b> ' + escaped(so_far = data.states) + ' so far.</p>');
      else worker.postMessage(what);
    };
    worker.onerror = e => { e.preventDefault(); end(() => fail(new Refused('The search ended: ' + e.message))); };
  });
}
// what the proved module says of all orders with the rule on: {most, bound, words}
function withRule(text) {
  if (text === null) return { words: 'With the rule on, this choice of wakers was not searched.' };
  if (text.startsWith('{"fault"')) return { words: 'With the rule on, the proved module did not search this network: ' + JSON.parse(text).words + '. That no run of GHS breaks is proved for each network.' };
  const lines = text.split('\n').map(x => x.split(' ')), [, least, most, bound] = lines.find(x => x[0] === 'r'), states = lines.find(x => x[0] === 'x')[1];
  return { most: +most, bound: +bound, words: 'With the rule on, no run of this network breaks, as is proved for each network; the proved module searched all orders of this one to the end: ' + many(+states, 'state') + ', ' + between(least, most) + ' messages.' };
}
async function breaks(rules, o) {
  const rule = here.off, { nodes, links } = here.graph, first = { all: false, first: true }[o.wake] ?? null;
  const found = await searched({ rules: $('rules').value, nodes, links, o, bent: rule.net || {}, bytes: here.bytes, graph: here.graphText, first }), told = found.told, right = withRule(found.right);
  if (told.most > right.bound) told.faults.set('bound', { words: 'a run sends ' + told.most + ' messages, and the bound is ' + right.bound });
  if (!told.faults.size && told.most > right.most) told.faults.set('more', { words: 'a run sends ' + told.most + ' messages; with the rule no run sends more than ' + right.most });
  here.broken = told.faults;
  const events = f => f.way ? f.way.length + (f.event ? 1 : 0) : Infinity, list = [...told.faults].sort((a, b) => events(a[1]) - events(b[1])), best = told.faults.get(rule.shows)?.way ? rule.shows : list.find(([, f]) => f.way)?.[0];
  const row = ([fault, f]) => '<tr><td>' + (f.way ? '<button data-fault="' + fault + '">' + many(events(f), 'event') + '</button>' : '') + '</td><td><b>' + escaped(WHY.faults[fault]) + '</b>: ' + escaped(f.words) + '.</td></tr>';
  const extent = told.whole ? 'All orders of this network: ' + many(told.states, 'state') + '.' : 'The search stopped at ' + told.states + ' states, and says nothing of the rest, nor of runs that never end.';
  tell('wrong', '<p><b>' + NOT + '.</b> Switched off: ' + escaped(rule.rule) + '</p>' +
    (list.length ? '<p>What breaks, each in a shortest run:</p><table class="broken">' + list.map(row).join('') + '</table><p>' + escaped(rule.why) + '</p>' : '<p>On this network nothing ' + (told.whole ? 'breaks' : 'was seen to break') + (rule.shows ? '. Take the smallest network of this rule.' : ': ' + escaped(rule.why)) + '</p>') +
    '<p>' + extent + ' ' + escaped(right.words) + '</p>');
  if (best) await openBroken(best); else here.net = null;
  $('verdict').scrollIntoView({ block: 'nearest' });
}
// the run that shows it; a message that has no rule isn't taken
async function openBroken(fault) {
  const f = here.broken.get(fault);
  await open([...f.way, ...(f.round || [])]);
  here.breaks = { net: here.net, at: f.way.length, words: WHY.faults[fault] + ': ' + f.words };
}

const suit = name => { for (const k in SUITS[name]) $(k).value = SUITS[name][k]; };

// ---- files
function save(text, name) {
  const link = document.createElement('a');
  link.href = URL.createObjectURL(new Blob([text], { type: 'text/plain' }));
  link.download = name;
  link.click();
  setTimeout(() => URL.revokeObjectURL(link.href), 10000);
}
function takeBook(text) {
  try {
    const book = readBook(text);
    switched(null);
    Object.assign(here, { book, rules: null, net: null, last: { book } });
    $('source').textContent = '(a book of ' + book.size + ' answers is loaded, and answers in their place)';
    $('rules').disabled = true;
    $('leavebook').hidden = false;
    const net = [...book.keys()].filter(q => q.startsWith('open ')).length;
    tell('', '<p>The book is read: ' + book.size + ' answers, of ' + net + ' nodes.</p>');
  } catch (e) { if (!(e instanceof Refused)) throw e; tell('wrong', '<p>' + escaped(e.message) + '</p>'); }
  show();
}
function leaveBook() {
  Object.assign(here, { book: null, rules: null, net: null });
  $('source').textContent = '';
  $('rules').disabled = false;
  $('leavebook').hidden = true;
  show();
}

// ---- what is seen of the run
const el = (name, attrs, parent) => { const e = document.createElementNS('http://www.w3.org/2000/svg', name); for (const a in attrs) e.setAttribute(a, attrs[a]); if (parent) parent.append(e); return e; };
@PLACES@
// each component by itself, side by side
function placesOf(graph, width, height) {
  const at = [], far = v => graph.ports[v].map(p => p.far);
  let left = 0;
  for (const r of graph.roots) {
    const list = graph.root.map((x, v) => x === r ? v : 0).filter(v => v), spots = place(list, far), xs = spots.map(s => s[0]), ys = spots.map(s => s[1]);
    const x0 = Math.min(...xs), y0 = (Math.min(...ys) + Math.max(...ys)) / 2;
    list.forEach((v, i) => { at[v] = [left + spots[i][0] - x0, spots[i][1] - y0]; });
    left += Math.max(...xs) - x0 + 1;
  }
  const xs = at.slice(1).map(s => s[0]), ys = at.slice(1).map(s => s[1]), wide = Math.max(...xs) - Math.min(...xs), high = Math.max(...ys) - Math.min(...ys);
  const unit = Math.min((width - 80) / (wide || 1), (height - 70) / (high || 1), 150), x0 = (Math.max(...xs) + Math.min(...xs)) / 2, y0 = (Math.max(...ys) + Math.min(...ys)) / 2;
  return at.map(s => [width / 2 + (s[0] - x0) * unit, height / 2 + (s[1] - y0) * unit]);
}
const LOOKS = { branch: 'tree', rejected: 'closed' };
// what may be chosen by a click
const chosen = event => ({ 'data-event': JSON.stringify(event) });
function draw(net, step, next) {
  const wakes = next.filter(e => e[1] === null).map(e => e[0]);
  const svg = $('net'), graph = here.graph, width = Math.max(330, Math.min(640, svg.clientWidth || 640)), height = graph.nodes > 12 ? 480 : 300, pairs = new Map(), r = graph.nodes > 30 ? 11 : 15;
  if (here.width !== width) Object.assign(here, { width, places: null });
  const at = here.places ??= placesOf(graph, width, height);
  svg.textContent = '';
  svg.setAttribute('viewBox', '0 0 ' + width + ' ' + height);
  for (const l of graph.links) {
    const pair = l.a + ' ' + l.b, k = pairs.get(pair) || 0, [xa, ya] = at[l.a], [xb, yb] = at[l.b], long = Math.hypot(xb - xa, yb - ya) || 1;
    pairs.set(pair, k + 1);
    // parallel links are bent apart
    const bend = Math.ceil(k / 2) * (k % 2 ? 26 : -26), mx = (xa + xb) / 2 - (yb - ya) / long * bend, my = (ya + yb) / 2 + (xb - xa) / long * bend;
    for (const [v, p, x, y, far, q] of [[l.a, l.pa, xa, ya, l.b, l.pb], [l.b, l.pb, xb, yb, l.a, l.pa]]) {
      const mark = net ? marksOf(net.state[v])[p] || 'basic' : 'basic';
      el('path', { class: 'half ' + (LOOKS[mark] || ''), d: 'M' + x + ' ' + y + 'L' + mx + ' ' + my }, svg);
      const list = net ? net.queues[v][p] : [], d = Math.hypot(mx - x, my - y) || 1;
      list.slice(0, 3).forEach((m, i) => {
        const t = Math.min(.95, (r + 13 + 17 * i) / d), px = x + (mx - x) * t, py = y + (my - y) * t, fresh = step && step.told.sends.some(([port, text]) => step.v === far && port === q && text === m) && i === list.lastIndexOf(m);
        const g = el('g', { class: 'pillmark' + (fresh ? ' fresh' : ''), ...(i ? {} : chosen([v, p])) }, svg);
        el('title', {}, g).textContent = m + ' waits at node ' + v + ', from node ' + far + (i ? '' : '; a click, and node ' + v + ' takes it');
        el('rect', { x: px - 8, y: py - 8, width: 16, height: 16, rx: 6 }, g);
        el('text', { x: px, y: py }, g).textContent = i === 2 && list.length > 3 ? '+' + (list.length - 2) : m[0].toUpperCase();
      });
    }
    if (graph.links.length < 100) el('text', { class: 'weight', x: mx, y: my }, svg).textContent = l.weight;
  }
  for (let v = 1; v <= graph.nodes; v++) {
    const state = net ? net.state[v] : '', g = el('g', { class: 'node' + (isOn(state, 'asleep') ? ' asleep' : '') + (isOn(state, 'halted') ? ' halted' : '') + (step && step.v === v ? ' at' : ''), ...(wakes.includes(v) ? chosen([v, null]) : {}) }, svg);
    el('title', {}, g).textContent = 'node ' + v + (state ? ': ' + state : '') + (wakes.includes(v) ? '; a click wakes it' : '');
    el('circle', { class: 'body', cx: at[v][0], cy: at[v][1], r }, g);
    el('circle', { class: 'stop', cx: at[v][0], cy: at[v][1], r: r + 5 }, g);
    el('text', { x: at[v][0], y: at[v][1] }, g).textContent = v;
  }
}
// what breaks at an event, in words
const broken = at => here.breaks && here.breaks.net === here.net && here.breaks.at === at ? ' <b>Here it breaks: ' + escaped(here.breaks.words) + '.</b>' : '';
function show() {
  const net = here.net, n = net ? net.steps.length : 0, at = net ? net.at : 0, step = at > 0 ? net.steps[at - 1] : null;
  $('seek').max = n;
  $('seek').value = at;
  $('count').textContent = net ? 'event ' + at + ' of ' + n : 'no run yet';
  for (const [id, off] of [['first', at === 0], ['back', at === 0], ['forth', at === n], ['last', at === n]]) $(id).disabled = !net || off;
  const next = mayNext();
  if (here.graph) draw(net, step, next);
  showNext(next);
  markOdd();
  $('savebook').disabled = !here.last || !here.last.book.size;
  $('savetrace').disabled = !net;
  $('trace').textContent = net ? traceText(here.rules.name, net.events()) : '';
  if (!net) { for (const id of ['vars', 'queues', 'say', 'line']) $(id).textContent = ''; return; }
  const far = (v, p) => here.graph.ports[v][p].far, now = net.state.map((s, v) => v ? varsOf(s) : null), was = step ? varsOf(step.old) : {}, names = [...new Set(now.slice(1).flatMap(x => Object.keys(x)))];
  $('vars').innerHTML = '<table><tr><th>node</th>' + names.map(k => '<th>' + escaped(k) + '</th>').join('') + '</tr>' + now.map((x, v) => v ? '<tr data-node="' + v + '"' + (step && step.v === v ? ' class="at"' : '') + '><td>' + v + '</td>' + names.map(k => '<td' + (step && step.v === v && was[k] !== x[k] ? ' class="new"' : '') + '>' + escaped(x[k] ?? '') + '</td>').join('') + '</tr>' : '').join('') + '</table>';
  const lines = [];
  for (let v = 1; v <= net.graph.nodes; v++) net.queues[v].forEach((q, p) => { if (q.length) lines.push('<tr><td>node ' + v + ', port ' + p + ', from node ' + far(v, p) + '</td><td>' + q.slice(0, 50).map(escaped).join(', ') + (q.length > 50 ? ', and ' + (q.length - 50) + ' more' : '') + '</td></tr>'); });
  $('queues').innerHTML = lines.length ? '<table>' + lines.join('') + '</table>' : 'none';
  $('say').className = broken(at) && 'breaks';
  if (!step) { $('say').innerHTML = 'The opening: all nodes sleep.' + broken(0); $('line').textContent = ''; return; }
  const then = varsOf(step.told.state), changes = Object.keys(then).filter(k => was[k] !== then[k]).map(k => k + ' ' + (was[k] ?? 'none') + ' becomes ' + then[k]);
  const on = step.p === null ? '' : escaped(step.m) + ' on port ' + step.p + ', from node ' + far(step.v, step.p);
  if (step.how === 'lose' || step.how === 'twice') {
    $('say').innerHTML = '<b>Event ' + at + '</b>: the message ' + on + ' to node ' + step.v + (step.how === 'lose' ? ' is lost.' : ' is there once more, at the end of its queue.') + broken(at);
    $('line').textContent = '';
    return;
  }
  $('say').innerHTML = '<b>Event ' + at + '</b>: node ' + step.v + (step.p === null ? ' wakes by itself' : ' takes ' + on + (step.how > 0 ? ', past ' + (step.how === 1 ? 'the message' : step.how + ' messages') + ' in front of it' : '') + (step.told.waits ? net.keeps(step) ? ', and it waits' : ', and it is thrown away' : '')) + '. ' +
    (step.told.sends.length ? 'It sends ' + step.told.sends.map(([p, m]) => escaped(m) + ' to node ' + far(step.v, p)).join(', ') + '. ' : 'It sends nothing. ') + (changes.length ? escaped(changes.join('; ')) + '.' : 'No variable changes.') + broken(at);
  const q = here.rules.question(step.v, step.p, step.m, step.old);
  $('line').textContent = lineOf(q, here.rules.book.get(q));
}
function move(k) { if (here.net && !busy) { here.net.goto(k); show(); } }
const setTheme = dark => { document.documentElement.classList.toggle('dark', dark); $('theme').textContent = dark ? 'light' : 'dark'; };

async function start() {
  try { setTheme(matchMedia('(prefers-color-scheme: dark)').matches); } catch { /* then it is light */ }
  $('theme').onclick = () => setTheme(!document.documentElement.classList.contains('dark'));
  const pick = (id, from) => { $(id).innerHTML = '<option value="">choose ..</option>' + Object.keys(from).map(k => '<option>' + k + '</option>').join(''); };
  pick('example', EXAMPLES);
  pick('network', NETWORKS);
  here.claim = $('claim').textContent;
  const offered = (label, list) => '<optgroup label="' + label + '">' + list.map(r => '<option value="' + r.name + '">' + escaped(r.rule) + (r.net ? ' ' + escaped(r.off) : '') + '</option>').join('') + '</optgroup>';
  $('rule').innerHTML = '<option value="">choose ..</option>' + offered('rules of a node', WHY.rules.filter(r => !r.net)) + offered('what the network promises', WHY.rules.filter(r => r.net));
  const kept = id => { try { return sessionStorage.getItem('own.' + id); } catch { return null; } };
  $('rules').value = kept('rules') || EXAMPLES.ghs;
  $('graph').value = kept('graph') || NETWORKS.triangle;
  try {
    await startBox(here.bytes = await moduleBytes());
    readGraph();
  } catch (e) { tell('wrong', '<p>' + escaped(e instanceof Refused ? e.message : 'This browser cannot start the proved code: ' + e.message) + '</p>'); if (!box) return; }
  suit(/class\s+Echo\b/.test($('rules').value) ? 'echo' : 'ghs');
  $('example').onchange = e => { const name = e.target.value; if (!name || busy) return; if (here.book) leaveBook(); switched(null); $('rules').value = EXAMPLES[name]; suit(name); here.net = null; tell('', ''); show(); e.target.value = ''; };
  $('network').onchange = e => { if (!e.target.value || busy) return; $('graph').value = NETWORKS[e.target.value]; fresh(); e.target.value = ''; };
  const fresh = here.fresh = () => { try { readGraph(); tell('', ''); } catch (e) { tell('wrong', '<p>' + escaped(e.message) + '</p>'); } show(); };
  $('graph').onchange = () => { if (!busy) fresh(); };
  $('wake').onchange = () => { if (busy) return; here.net = null; tell('', ''); show(); };
  $('next').onclick = $('net').onclick = leadBy;
  $('fails').checked = false;
  $('fails').onchange = () => { if (!busy) show(); };
  for (const [id, f] of [['run', runOne], ['hand', byHand], ['hundred', hundred], ['orders', orders], ['compare', compare], ['compareall', compareAll]]) $(id).onclick = () => command(f);
  $('stop').onclick = () => { stopped = true; here.halt?.(); };
  $('rule').onchange = showRule;
  $('smallest').onclick = takeSmallest;
  $('off').onclick = switchOff;
  $('on').onclick = switchOn;
  $('verdict').onclick = e => {
    const fault = e.target.dataset?.fault;
    if (fault && !busy) openBroken(fault).then(show);
    const seed = e.target.dataset?.seed; if (seed !== undefined) { $('seed').value = seed; command(runOne); }
  };
  $('saverules').onclick = () => save($('rules').value, 'rules.js');
  $('savegraph').onclick = () => save($('graph').value, 'graph.gr');
  $('savebook').onclick = () => save(bookText(here.last.book), 'node.book');
  $('savetrace').onclick = () => save($('trace').textContent, 'run.trace');
  $('loadbook').onclick = () => $('bookfile').click();
  $('bookfile').onchange = async e => { const file = e.target.files[0]; e.target.value = ''; if (file && !busy) takeBook(new TextDecoder('latin1').decode(await file.arrayBuffer())); };
  $('leavebook').onclick = () => { if (!busy) leaveBook(); };
  $('first').onclick = () => move(0);
  $('last').onclick = () => move(Infinity);
  $('back').onclick = () => move(here.net.at - 1);
  $('forth').onclick = () => move(here.net.at + 1);
  $('seek').oninput = e => move(+e.target.value);
  addEventListener('keydown', e => {
    if (e.key === 'Enter' && e.ctrlKey) { e.preventDefault(); if (!$('run').disabled) command(runOne); return; }
    if (e.target.matches('textarea, select, input:not([type=checkbox], [type=range])') || e.ctrlKey || e.altKey || e.metaKey) return;
    const event = /^[1-9]$/.test(e.key) && mayNext()[e.key - 1];
    if (event) { e.preventDefault(); lead(event); return; }
    if (e.target.matches('[type=range], .scroll') || !here.net) return;
    const to = { ArrowLeft: here.net.at - 1, ArrowRight: here.net.at + 1, Home: 0, End: Infinity }[e.key];
    if (to !== undefined) { e.preventDefault(); move(to); }
  });
  addEventListener('resize', () => { if (!busy) show(); });
  const named = ruleNamed(decodeURIComponent(location.hash).replace(/^#why=/, ''));
  if (named) { $('whybox').open = true; $('rule').value = named.name; showRule(); takeSmallest(); }
  show();
  document.body.dataset.ready = 'yes';
}
start();
