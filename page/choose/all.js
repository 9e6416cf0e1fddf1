// ---- all runs of the network at hand. The module explores them in a worker, so the page goes on; where the worker is ended, it stops
// limits of states before the protocol's last
const LIMITS = [2000, 20000, 200000];
let explored = null;
const many = n => Number(n).toLocaleString('en-US');
// in the worker: the module is asked by rising limits; as long as there are more states than the limit, that is its answer
async function exploreAll({ bytes, graph, first, by, limits }) {
  box = (await WebAssembly.instantiate(bytes, {})).instance.exports;
  const g = hold(graph);
  let size = 1 << 20, text;
  const ask = limit => {
    const room = allot(size), n = Number(box.ghs_web_outcomes(first, by, limit, ...g, room, BigInt(size)));
    const text = n <= size ? TEXT.decode(new Uint8Array(box.memory.buffer, Number(room), n)) : null;
    box.heap_free(room);
    if (text !== null) return text;
    size = 2 * n;
    return ask(limit);
  };
  for (const limit of limits) {
    postMessage({ limit });
    text = ask(limit);
    if (!text.startsWith('{"fault":"states"')) break;
  }
  postMessage({ text });
}
const workerText = () => "'use strict';\nconst UTF8 = new TextEncoder(), TEXT = new TextDecoder();\nlet box = null;\n" + allot + '\n' + hold + '\n' + exploreAll + '\nonmessage = e => exploreAll(e.data).catch(e => postMessage({ failed: e.message }));\n';
const ofAll = () => 'By ' + PROTOCOLS[explored.by].by + ', ' + (wakeFirst ? 'only the first node of each component wakes by itself' : 'all nodes may wake');
const passed = () => explored.passed ? 'more than ' + many(explored.passed) + ' states so far.' : 'exploring.';
function allState(text, working) {
  $('allstate').textContent = text;
  $('stopall').hidden = !working;
  $('goall').hidden = working;
}
function endWorker() {
  if (explored && explored.worker) explored.worker.terminate();
  if (explored) URL.revokeObjectURL(explored.url);
}
// what is explored is ended, and what was found isn't shown any more
function endAll(text = '') {
  endWorker();
  explored = null;
  $('allrows').innerHTML = '';
  allState(text, false);
}
const NO_WORKER = 'This browser starts no worker here. The command ./ghs explore does the same.';
function beginAll() {
  endAll();
  const by = +$('allby').value, url = URL.createObjectURL(new Blob([workerText()], { type: 'text/javascript' })), now = explored = { graph: graphText, first: wakeFirst, by, limit: 0, passed: 0, url, worker: null };
  try { now.worker = new Worker(url); } catch { return endAll(NO_WORKER); }
  allState(ofAll() + ': ' + passed(), true);
  now.worker.onmessage = ({ data }) => {
    if (explored !== now) return;
    if (data.limit) { now.passed = now.limit; now.limit = data.limit; allState(ofAll() + ': ' + passed(), true); return; }
    endWorker();
    now.worker = null;
    if (data.failed) return endAll(data.failed + '.');
    showAll(data.text);
  };
  now.worker.onerror = () => { if (explored === now) endAll(NO_WORKER); };
  now.worker.postMessage({ bytes: moduleCode, graph: graphText, first: wakeFirst ? 1 : 0, by, limits: [...LIMITS, PROTOCOLS[by].states] });
}
const capital = text => text[0].toUpperCase() + text.slice(1);
// the lines that the program prints too: a row each, the least and the greatest sum with the bound, the states; then a run of each row
function showAll(text) {
  const fault = faultOf(text);
  if (fault) return allState((fault.fault === 'states' ? 'There are more than ' + many(explored.limit) + ' states; the page stops here' : capital(fault.words) + (explored.passed ? ': there are more than ' + many(explored.passed) + ' states' : '')) + '.' + (explored.passed ? ' The command ./ghs explore can go on.' : ''), false);
  const [lines, ...runs] = text.split(/^(?=trace )/m), words = lines.trimEnd().split('\n').map(line => line.split(' '));
  const rows = words.filter(w => w[0] === 'e').map(w => ({ sum: +w[2], sent: w.slice(3).map(x => x.split('=')) })), [, least, greatest, bound] = words.find(w => w[0] === 'r'), states = words.find(w => w[0] === 'x')[1];
  Object.assign(explored, { rows, runs });
  const sums = least === greatest ? 'Each run sends ' + least + ' messages' : 'No run sends fewer than ' + least + ' messages or more than ' + greatest;
  allState(ofAll() + ': ' + many(states) + ' states. ' + sums + ' (the bound is ' + bound + '). ' + (rows.length === 1 ? 'Each run ends with these counts.' : 'Each run ends with one of these ' + many(rows.length) + ' rows of counts, and each row occurs.'), false);
  $('allrows').innerHTML = '<table><tr><th></th>' + ['sum', ...rows[0].sent.map(([name]) => name)].map(name => '<th class="n"><span>' + name + '</span></th>').join('') + '</tr>'
    + rows.map((r, k) => '<tr><td><button data-row="' + k + '" title="opens a run that ends so">open</button></td><td class="n"><b>' + r.sum + '</b></td>' + r.sent.map(([, n]) => '<td class="n">' + n + '</td>').join('') + '</tr>').join('') + '</table>';
}
function openRow(k) {
  const was = stateNow();
  by = explored.by;
  if (!load(graphText, explored.runs[k], 0, placed)) { by = was.by; return; }
  ledOn();
  if (by !== was.by) leaveTask();
  setAside(was, '');
}
// what was explored of another network, or for another wake set, isn't of this page any more
function keepAll() {
  if (explored && (explored.graph !== graphText || explored.first !== wakeFirst)) endAll('The network or its wake set has changed.');
}
function alls() {
  $('allruns').onclick = () => { $('all').hidden = false; $('allby').value = by; beginAll(); $('all').scrollIntoView({ block: 'nearest' }); };
  $('closeall').onclick = () => { endAll(); $('all').hidden = true; };
  $('goall').onclick = $('allby').onchange = beginAll;
  $('stopall').onclick = () => endAll('Stopped: ' + (explored.passed ? 'there are more than ' + many(explored.passed) + ' states.' : 'no limit is passed yet.'));
  $('allrows').onclick = e => { if (e.target.dataset.row) openRow(+e.target.dataset.row); };
}
