// ---- two protocols on the network at hand, each by rounds of one seed: messages, rounds, bits, and the links that are found
let twoRuns = null;
// the bits of what a message carries, whatever its kind
const carried = m => lengthOf({ ...m, kind: KINDS[0] }) - BITS[KINDS[0]];
// what a run of this network comes to, by the data that the module tells of it
function accountOf(text) {
  const told = text.split('\n').filter(x => /^{"(ghs|protocol|step|ledger)":/.test(x)).map(x => JSON.parse(x)), one = name => told.find(o => name in o);
  const p = one('protocol'), { sent } = one('ledger'), tree = p.marks.find(m => m.look === 'tree'), kind = new Map(p.kinds.map(k => [k.kind, k])), marks = new Map();
  let bits = 0, longest = 0;
  for (const s of told) if ('step' in s) {
    for (const [port, mark] of s.marks ?? (s.mark ? [s.mark] : [])) marks.set(s.node + ' ' + port, mark);
    for (const m of s.send) { const n = carried(m) + kind.get(m.kind).bits; bits += n; longest = Math.max(longest, n); }
  }
  const found = links.filter(l => [l.a + ' ' + l.a_port, l.b + ' ' + l.b_port].some(end => marks.get(end) === tree.mark));
  return { kinds: new Map(p.kinds.map((k, i) => [k.name, sent[i]])), sum: sent.reduce((a, b) => a + b, 0), bound: one('ghs').bound, bits, longest, links: found.length, weight: found.reduce((a, l) => a + l.weight, 0) };
}
// the run by rounds of a protocol, or a fault
function runByRounds(p, seed) {
  const text = timedOf(graphText, seed, p), fault = faultOf(text);
  if (fault) return { fault };
  const end = text.indexOf('\n') + 1, trace = text.slice(end), told = seenOf(graphText, trace, p), wrong = faultOf(told);
  return wrong ? { fault: wrong } : { by: p, trace, rounds: JSON.parse(text.slice(0, end)).rounds, ...accountOf(told) };
}
function endTwo(text = '') {
  twoRuns = null;
  $('tworuns').textContent = text;
}
function beginTwo() {
  const seed = seedNow();
  if (seed === null) return endTwo();
  const runs = [$('oneby'), $('otherby')].map(x => runByRounds(+x.value, seed)), wrong = runs.find(r => r.fault);
  if (wrong) return endTwo(wrong.fault.words + '.');
  twoRuns = { graph: graphText, first: wakeFirst, runs };
  const row = (name, of) => '<tr><td>' + name + '</td>' + runs.map(r => '<td>' + (of(r) ?? '-') + '</td>').join('') + '</tr>', names = [...new Set(runs.flatMap(r => [...r.kinds.keys()]))];
  $('tworuns').innerHTML = '<table><tr><td></td>' + runs.map(r => '<th>' + PROTOCOLS[r.by].title + '</th>').join('') + '</tr>'
    + '<tr><td></td>' + runs.map((r, i) => '<td><button data-run="' + i + '" title="opens this run">open</button></td>').join('') + '</tr>'
    + row('messages', r => '<b>' + r.sum + '</b>') + row('at most', r => r.bound) + row('rounds', r => '<b>' + r.rounds + '</b>') + row('bits', r => '<b>' + r.bits + '</b>') + row('longest, in bits', r => r.longest)
    + row('links found', r => r.links) + row('their weight', r => r.weight) + names.map(name => row(name, r => r.kinds.get(name))).join('') + '</table>';
}
function openTwo(i) {
  const was = stateNow(), run = twoRuns.runs[i];
  by = run.by;
  if (!load(graphText, run.trace, 0, placed)) { by = was.by; return; }
  ledOn();
  if (by !== was.by) leaveTask();
  setAside(was, '');
}
// what was run on another network, or for another wake set, isn't of this page any more
function keepTwo() {
  if (twoRuns && (twoRuns.graph !== graphText || twoRuns.first !== wakeFirst)) endTwo('The network or its wake set has changed.');
}
function twos() {
  $('otherby').value = 1;
  $('gotwo').onclick = () => { $('two').hidden = false; beginTwo(); $('two').scrollIntoView({ block: 'nearest' }); };
  $('closetwo').onclick = () => { endTwo(); $('two').hidden = true; };
  $('oneby').onchange = $('otherby').onchange = beginTwo;
  $('tworuns').onclick = e => { if (e.target.dataset.run) openTwo(+e.target.dataset.run); };
}
