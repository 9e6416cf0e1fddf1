// ---- what is kept of a run to judge it: its network, its steps, and whether a component has halted
function ranOf(text) {
  const all = text.trim().split('\n').map(x => JSON.parse(x)), head = all.find(o => 'ghs' in o);
  return { nodes: head.nodes, links: all.filter(o => 'link' in o), steps: all.filter(o => 'step' in o) };
}
// for each node the least node of its component
function componentsOf({ nodes: n, links: ls }) { const top = classes(n, ls.map(l => [l.a, l.b])); return Array.from({ length: n + 1 }, (_, v) => v && top(v)); }

// ---- a task is decided by its predicate (docs/FORMATS.md, "Tasks"), step by step: `done` and `lost` are the events that decide
const TASKS = @TASKS@;
const matches = (p, s) => (p.node === undefined || s.node === p.node) && (!p.kind || s.kind === p.kind) && (!p.fate || s.fate === p.fate) && (!p.row || s.row === p.row)
  && (p.level === undefined || s.level >= p.level) && (!p.sends || s.send.some(x => x.kind === p.sends)) && (p.reaches === undefined || s.set.level >= p.reaches);
const fresh = () => ({ hits: 0, count: 0, wakes: 0, woken: [], halted: [], names: {}, done: 0, lost: 0 });
function judged(want, m, s, component) {
  if (m.done || m.lost) return m;
  m = { ...m };
  const of = component[s.node], all = new Set(component.slice(1)).size;
  if (!m.woken.includes(of)) m.woken = [...m.woken, of].sort();
  if (want.see) {
    if (matches(want.see, s)) m.hits++; else if (want.row) m.hits = 0;
    if (m.hits >= (want.row || 1)) m.done = s.step; else if (want.before && matches(want.before, s)) m.lost = s.step;
  }
  if (want.asleep) {
    if (s.set.halted && m.woken.length < all) m.done = s.step; else if (m.woken.length === all) m.lost = s.step;
  }
  const end = want.end;
  if (!end) return m;
  if (s.port === null) m.wakes++;
  if (end.core && s.set.name) m.names = { ...m.names, [s.node]: s.set.name };
  if (end.count) m.count += s.send.filter(x => end.count === 'sent' || x.kind === end.count).length;
  if (s.set.halted && !m.halted.includes(of)) m.halted = [...m.halted, of].sort();
  const over = m.count > (end.most ?? Infinity) || m.wakes > (end.wakes ?? Infinity) || end.never && matches(end.never, s);
  if (over) m.lost = s.step;
  else if (m.halted.length === all) { if (m.count >= (end.least ?? 0) && (!end.core || m.names[s.node] === end.core)) m.done = s.step; else m.lost = s.step; }
  return m;
}
function judge(t, ran) { const component = componentsOf(ran); return ran.steps.reduce((m, s) => judged(t.want, m, s, component), fresh()); }

// ---- whether a task can still be done: all that can follow is tried, as far as the limit goes
const TRIED = 6000;
let search_ = 0;
function explore(t, m, answer) {
  const mine = ++search_, component = componentsOf({ nodes: G.nodes, links }), seen = new Set(), todo = [];
  let calls = 0;
  const copy = x => JSON.parse(JSON.stringify(x));
  // of what is remembered only what the predicate asks for, and the state doesn't say
  const end = t.want.end || {}, memory = x => [t.want.row && x.hits, end.count && x.count, end.wakes && x.wakes].join();
  const add = (net, m, events, text) => {
    const key = JSON.stringify(net) + memory(m);
    if (seen.has(key)) return;
    seen.add(key);
    todo.push({ net, m, events, may: [...choicesIn(text).keys()] });
  };
  const net = { nodes: nodes.slice(1).map(n => [n.marks.slice(), ...P.variables.flat().map(x => n[x])]), queues: {} };
  for (const q of queues.values()) if (q.list.length) net.queues[q.v + ' ' + q.p] = q.list.map(x => words(x));
  const follow = (net, s) => {
    const next = copy(net), n = next.nodes[s.node - 1], names = P.variables.flat();
    if (s.port !== null) { const q = next.queues[s.node + ' ' + s.port], x = q.shift(); if (s.fate === 'waits') q.push(x); if (!q.length) delete next.queues[s.node + ' ' + s.port]; }
    for (const [p, mark] of s.mark ? [s.mark] : []) n[0][p] = mark;
    for (const x in s.set) n[1 + names.indexOf(x)] = s.set[x];
    for (const x of s.send) (next.queues[x.to + ' ' + x.at] ??= []).push(words(x));
    next.queues = Object.fromEntries(Object.entries(next.queues).sort());
    return next;
  };
  const graph = graphText;
  add(net, m, eventsNow().slice(0, at), seenOf(graph, traceOf(eventsNow().slice(0, at))));
  const slice = () => {
    const until = performance.now() + 12;
    while (mine === search_ && todo.length && performance.now() < until) {
      const from = todo.shift();
      for (const key of from.may) {
        const events = [...from.events, placeOf(key)], text = seenOf(graph, traceOf(events)), step = JSON.parse(text.slice(text.lastIndexOf('{"step":'), text.indexOf('\n', text.lastIndexOf('{"step":'))));
        if (++calls > TRIED) { todo.length = 0; return answer(null); }
        const next = judged(t.want, from.m, step, component);
        if (next.done) { todo.length = 0; return answer(true); }
        if (!next.lost) add(follow(from.net, step), next, events, text);
      }
    }
    if (mine !== search_) return;
    if (!todo.length) return answer(false, seen.size);
    setTimeout(slice, 0);
  };
  setTimeout(slice, 30);
}

// ---- the task at hand
let task = null, taskState = { key: '' }, answered = 0, theirs = false, doneTasks = new Set((recall('done') || '').split(' ').filter(x => x));
const taskOf = id => TASKS.find(t => t.id === id) || null;
const wakeOf = t => t.wake === 'first';
const ownTask = () => task && !by && graphText === EXAMPLES[task.graph] && wakeFirst === wakeOf(task);
// a run that somebody else has led doesn't do the task for the reader
function setTask(id, another = false) {
  task = taskOf(id || ''); taskState = { key: '' }; answered = 0; theirs = another;
  if (task && recall('guess') === null) $('guessing').checked = true;
  document.body.classList.toggle('tasked', !!task); guide();
  fitGuide();
}
function beginTask(id) {
  const t = taskOf(id), was = touring() ? {} : stateNow();
  leaveTour();
  for (const d of document.querySelectorAll('dialog[open]')) d.close();
  wakeFirst = wakeOf(t);
  by = 0;
  $('wakers').value = wakeFirst ? 'first' : '';
  load(EXAMPLES[t.graph], 'trace 0\n', 0);
  setTask(id);
  setAside(was, '');
}
// a run that comes with an address is judged as somebody else's, if it does the task already
function setTaskOf(led) { setTask(led.task, true); theirs = !!task && taskSays()[0] === 'done'; }
function leaveTask() { if (task && !ownTask()) setTask(''); }
function leaveGuide() { leaveTour(); leaveTask(); }
// what is said of the run: done, and by which event; that it can't be done any more; else nothing
function taskNow() {
  const key = graphText + traceOf(eventsNow()) + ' ' + at + ' ' + wakeFirst;
  if (taskState.key === key) return taskState;
  search_++;
  const component = componentsOf({ nodes: G.nodes, links }), seen = steps.slice(0, at), m = seen.reduce((m, s) => judged(task.want, m, s, component), fresh());
  const all = at < G.to && !m.done && !m.lost ? steps.slice(at).reduce((m, s) => judged(task.want, m, s, component), m) : m;
  taskState = { key, m: all.done ? all : m, hopeless: 0 };
  if (!m.done && !m.lost && !all.done && at === G.to) explore(task, m, (found, states) => { if (found === false) { taskState.hopeless = states; guide(); } });
  return taskState;
}
function taskSays() {
  if (!ownTask()) return ['', 'This is another ' + (by ? 'protocol' : 'network') + ' than the task\'s.'];
  const { m, hopeless } = taskNow();
  if (m.done && task.ask && answered !== task.right) return ['half', 'Event ' + m.done + ' completes the run. ' + (answered ? 'That is not the reason.' : 'Now answer:')];
  if (m.done) return ['done', 'Done by event ' + m.done + '.'];
  if (m.lost) return ['lost', 'This run can no longer do it: event ' + m.lost + ' rules it out. Take back, or start over.'];
  if (hopeless) return ['lost', 'This run can no longer do it: the page tried ' + (hopeless > 1 ? 'all ' + hopeless + ' states' : 'the only state') + ' that can follow. Take back, or start over.'];
  return ['', ''];
}

// ---- the tour: runs that are stored, a moment of each, a sentence, and what to look at
const TOUR = @TOUR@, TOUR_RUNS = @TOUR_RUNS@;
let tourAt = -1, tourLast = 0, beforeTour = null;
const touring = () => tourAt >= 0;
const ofTour = was => !was.first && Object.entries(TOUR_RUNS).some(([name, run]) => was.graph === EXAMPLES[name] && was.trace === run);
function goTour(k) {
  const was = stateNow(), began = !touring();
  setTask('');
  tourAt = Math.max(0, Math.min(TOUR.length - 1, k));
  tourLast = tourAt;
  const step = TOUR[tourAt];
  if (began && was.events) beforeTour = was;
  document.body.classList.add('touring');
  wakeFirst = false;
  by = 0;
  $('wakers').value = '';
  if (shownBy || graphText !== EXAMPLES[step.graph] || traceOf(eventsNow()) !== TOUR_RUNS[step.graph]) load(EXAMPLES[step.graph], TOUR_RUNS[step.graph], step.at); else { if (timer) halt(); asking = false; goto(step.at); }
  pin = 0;
  zoom = { k: 1, x: 0, y: 0 };
  say('');
  setTab('net');
  guide();
  fitGuide();
}
function leaveTour() {
  if (!touring()) return;
  tourAt = -1;
  document.body.classList.remove('touring');
  $('rings').innerHTML = '';
  guide();
  fitGuide();
  show();
  if (beforeTour) setAside(beforeTour, 'The tour is left.');
  beforeTour = null;
}
// rings round what a step speaks of: nodes, links, and messages by their receiver and its port
function rings() {
  if (tab !== 'net') $('rings').innerHTML = '';
  if (!touring() || tab !== 'net' || graphText !== EXAMPLES[TOUR[tourAt].graph]) return;
  const stage = $('stage').getBoundingClientRect(), round = (x, y, r) => '<i style="left:' + (x - r).toFixed(1) + 'px;top:' + (y - r).toFixed(1) + 'px;width:' + (2 * r).toFixed(1) + 'px;height:' + (2 * r).toFixed(1) + 'px"></i>';
  const middle = e => { const b = e.getBoundingClientRect(); return [b.left + b.width / 2 - stage.left, b.top + b.height / 2 - stage.top, Math.max(b.width, b.height) / 2 + 7]; };
  $('rings').innerHTML = TOUR[tourAt].look.map(x => {
    const [what, a, b] = x.split(' ');
    if (what === 'node') return round(...middle(nodes[a].body).map((x, i) => i < 2 ? x : x + 6));
    if (what === 'link') { const i = links.findIndex(l => l.a === +a && l.b === +b), [x, y] = curveAt(i, .5); return round(x + zoom.x, y + zoom.y, radius * 1.5); }
    const g = document.querySelector('.msg[data-q^="' + a + ' ' + b + ' "] path');
    return g ? round(...middle(g)) : '';
  }).join('');
}

// ---- the bar under the head: the step of the tour, or the task
let fitted = 0, held = null;
function fitGuide() { const high = $('guide').parentNode.offsetHeight; if (high !== fitted && base) { fitted = high; relay(); } }
const button = (id, text, more = '') => '<button id="' + id + '"' + more + '>' + text + '</button>';
function guide() {
  const bar = $('guide');
  bar.hidden = !touring() && !task;
  if (touring()) {
    const step = TOUR[tourAt], last = tourAt === TOUR.length - 1;
    table('guidetext', '<b>' + (tourAt + 1) + ' / ' + TOUR.length + '</b> ' + step.text);
    table('guidedo', button('tourback', 'back', tourAt ? '' : ' disabled') + button('tournext', last ? 'let me try' : 'next') + button('tourleave', 'leave the tour'));
    rings();
  } else if (task) {
    const [how, words] = taskSays(), i = TASKS.indexOf(task), done = how === 'done';
    if (done && !theirs && !doneTasks.has(task.id)) { doneTasks.add(task.id); recall('done', [...doneTasks].join(' ')); }
    const asks = task.ask && (how === 'half' || done) ? '<p>' + task.ask + '</p>' + task.answers.map((x, k) => '<label><input type="radio" name="answer" value="' + (k + 1) + '"' + (answered === k + 1 ? ' checked' : '') + '> ' + x + '</label>').join('') : '';
    table('guidetext', '<b>Task ' + (i + 1) + ' of ' + TASKS.length + ': ' + task.title + '.</b> ' + task.text + ' <span id="taskstate" role="status" class="' + how + '">' + words + '</span>' + asks);
    table('guidedo', (done ? button('tasknext', 'next task') : button('taskhint', 'hint', ' aria-expanded="false"')) + button('taskover', 'start over') + button('taskhand', 'hand in') + button('tasklistgo', 'all tasks') + button('taskleave', 'leave'));
  }
  // what the head holds is measured where it may have changed
  const holds = bar.hidden ? '' : $('guidetext').textContent + $('guidedo').textContent;
  if (holds !== held) {
    held = holds;
    fitGuide();
    // a question that is asked is in sight
    const text = $('guidetext'), state = $('taskstate');
    if (state && text.querySelector('input')) text.scrollTop += state.getBoundingClientRect().top - text.getBoundingClientRect().top;
  }
}
function listTasks() {
  $('tasklist').innerHTML = TASKS.map(t => '<li><button data-task="' + t.id + '"><b>' + t.title + '</b> <i>' + t.graph + '</i>' + (doneTasks.has(t.id) ? ' <span class="done">done</span>' : '') + '</button></li>').join('');
  if (!$('tasks').open) $('tasks').showModal();
}

// ---- a guess before each message of one's own
const score = { right: 0, all: 0 };
const guessing = key => hides() && key.includes(' ');
function guessAt(k) {
  goto(k);
  asking = true;
  guess = { step: k + 1, own: true };
  show();
}
const askedOf = question;
question = function (s) {
  if (!guess || !guess.own) return askedOf(s);
  return '<div class="ask"><p class="say">Event ' + s.step + ': ' + opens(s) + '</p><p>Your guess: the message is ' + choice('fate', 'done', FATE.done) + choice('fate', 'waits', FATE.waits) + ' <button data-part="show">just show it</button></p></div>';
};
function ownGuess(e) {
  const d = e.target.dataset;
  if (e.target.matches('.row')) return openRule(e.target.textContent);
  if (!guess || !guess.own || !asking) return choose(e);
  if (d.part === 'fate') { guess.fate = d.value; score.all++; if (d.value === steps[at].fate) score.right++; }
  if (d.part) { move(at + 1); $('score').textContent = score.all ? score.right + ' of ' + score.all + ' right' : ''; }
}

// ---- the rule of an event, as docs/PROTOCOL.md has it, with its lines marked
const RULES = @RULES@, ROWS = @ROWS@;
const marked = text => text.replace(/&/g, '&amp;').replace(/</g, '&lt;').replace(/\*\*(.+?)\*\*/g, '<b>$1</b>').replace(/\*(.+?)\*/g, '<i>$1</i>').replace(/`(.+?)`/g, '<code>$1</code>');
function openRule(row) {
  const [name, ...lines] = !by && ROWS[row] || [];
  if (!name) return;
  const { work, does } = RULES.works[name];
  $('rulename').textContent = row;
  $('rulework').innerHTML = marked(work) + ': ' + (lines.length > 1 ? 'a sleeping node first does <b>wakeup</b>. Then the first line that fits.' : does.length > 1 ? 'the first line that fits.' : 'what the node does.');
  $('rulelines').innerHTML = does.map((x, i) => '<tr' + (lines.includes(i) ? ' class="mine" aria-current="true"' : '') + '><td>' + (lines.includes(i) ? '&#9654;' : '') + '</td><td>' + marked(x) + '</td></tr>').join('');
  $('ruleterms').innerHTML = RULES.terms.filter(([term]) => does.join().toLowerCase().includes('**' + term.toLowerCase() + '**')).map(([term, text]) => '<p><b>' + term + '.</b> ' + marked(text) + '</p>').join('') + '<p class="small">' + marked(RULES.head) + '</p>';
  $('rule').showModal();
}

// ---- handing in: one text, as a file or in a link (docs/FORMATS.md, "Hand-in")
const CONTROL = /[\x00-\x1f\x7f-\x9f]/g, clean = x => x.replace(CONTROL, '?'), plainName = x => x.replace(CONTROL, ' ').trim().slice(0, 60);
function handInText() {
  const graph = graphText.replace(/\n*$/, '\n'), lines = graph.split('\n').length - 1, name = plainName($('handname').value);
  return 'hand-in 1\n' + (task ? 'task ' + task.id + '\n' : '') + (name ? 'name ' + name + '\n' : '') + 'wake ' + (wakeFirst ? 'first' : 'all') + '\n' + (task && task.ask && answered ? 'answer ' + answered + '\n' : '')
    + 'graph ' + lines + '\n' + graph + traceOf(eventsNow());
}
// the hand-ins of a text: each starts with its head line, and a link holds one. Other words before them count for nothing;
// a text that holds no hand-in at all is one that is refused
const STRICT = new TextDecoder('utf-8', { fatal: true });
function handInsOf(text) {
  const out = [], put = part => { try { out.push(handIn(part)); } catch (e) { out.push({ refused: clean(e.message) }); } };
  const plain = text.replace(/\S*#hand=([\w-]*)\S*/g, (link, code) => { let part = ''; try { part = decoded(code, STRICT); } catch { part = ''; } put(part); return ''; });
  // the line feed before a head line ends what stands before it
  const parts = ('\n' + plain).split(/\n\ufeff?(?=hand-in [0-9])/).slice(1);
  parts.forEach((part, i) => put(i + 1 < parts.length ? part + '\n' : part));
  if (!out.length && text.trim()) put(text);
  return out;
}
function handIn(text) {
  const lines = text.replace(/^\ufeff/, '').replace(/\r/g, '').split('\n'), o = { task: '', name: '', wake: '', answer: '', graph: '', trace: '' };
  if (lines.shift() !== 'hand-in 1') throw Error('it does not begin with "hand-in 1"');
  for (const seen = new Set(); ;) {
    const line = lines.shift() ?? '', [word, ...more] = line.split(' '), rest = more.join(' ');
    if (word === 'trace') { o.trace = [line, ...lines].join('\n'); break; }
    if (!['task', 'name', 'wake', 'answer', 'graph'].includes(word) || seen.has(word)) throw Error('this line is not of the format: ' + line.slice(0, 60));
    seen.add(word);
    if (word === 'name' && (Array.from(rest).length > 60 || rest.search(CONTROL) >= 0)) throw Error('the name is too long or has a control character');
    if (line.search(CONTROL) >= 0) throw Error('this line has a control character: ' + line.slice(0, 60));
    if (word === 'graph') { if (!/^\d{1,7}$/.test(rest) || +rest > lines.length) throw Error('the graph has fewer lines than it says'); o.graph = lines.splice(0, +rest).map(x => x + '\n').join(''); }
    else o[word] = rest;
  }
  if (!o.graph || !['all', 'first'].includes(o.wake)) throw Error(o.graph ? 'it does not say who may wake' : 'it holds no graph');
  return o;
}
const bare = graph => graph.split('\n').filter(x => x.trim() && !/^c(\s|$)/.test(x)).map(x => x.trim().split(/\s+/).join(' ')).join('\n');
// what is handed in, judged: the run is played again, and only what that gives counts
function judgeHandIn(o) {
  if (o.refused) return { ...o, how: 'refused', why: o.refused };
  const t = taskOf(o.task), was = [wakeFirst, by], of = protocolIn(o.trace);
  [wakeFirst, by] = [o.wake === 'first', of];
  const text = seenOf(o.graph, o.trace), fault = faultOf(text);
  [wakeFirst, by] = was;
  if (fault) return { ...o, how: 'refused', why: fault.words };
  const ran = ranOf(text);
  if (!o.task) return { ...o, how: 'run', why: ran.steps.length + ' events' };
  if (!t) return { ...o, how: 'refused', why: 'there is no such task' };
  if (of) return { ...o, how: 'refused', why: 'another protocol than the task\'s' };
  if (bare(o.graph) !== bare(EXAMPLES[t.graph])) return { ...o, how: 'refused', why: 'another network than the task\'s' };
  if (o.wake !== (wakeOf(t) ? 'first' : 'all')) return { ...o, how: 'refused', why: 'another wake set than the task\'s' };
  const m = judge(t, ran);
  if (m.done && t.ask && o.answer !== String(t.right)) return { ...o, how: 'not done', why: 'the run is done by event ' + m.done + ', the answer is not' };
  return m.done ? { ...o, how: 'done', why: 'by event ' + m.done } : { ...o, how: 'not done', why: m.lost ? 'event ' + m.lost + ' decides it' : '' };
}
function openHandIn(text) {
  const [o] = handInsOf(text), found = judgeHandIn(o || { refused: 'nothing was handed in' });
  if (found.how === 'refused' && !found.trace) return refuse({ fault: 'hand-in', words: found.why });
  return showHandIn(found);
}
// one that was handed in is shown at its end, and the run that was there is set aside
function showHandIn(o) {
  const was = stateNow(), words = (o.name || 'Somebody') + (o.task ? ', task ' + o.task : '') + ': ' + o.how + (o.why ? ', ' + o.why : '') + '.';
  leaveTour();
  if (!restore({ graph: o.graph, first: o.wake === 'first', by: protocolIn(o.trace), trace: o.trace, at: 0, placed: null })) return false;
  move(G.to);
  setTask(o.task, true);
  answered = /^[1-9]$/.test(o.answer) ? +o.answer : 0;
  guide();
  say(words);
  if (was.graph !== graphText || was.trace !== traceOf(eventsNow())) setAside(was, words);
  return true;
}
const safe = x => String(x).replace(/&/g, '&amp;').replace(/</g, '&lt;');
let handed = [];
function checkAll(text) {
  handed = handInsOf(text).map(judgeHandIn);
  const count = how => handed.filter(o => o.how === how).length;
  $('checked').innerHTML = '<p>' + handed.length + ' handed in: ' + count('done') + ' done, ' + count('not done') + ' not done, ' + count('refused') + ' refused.</p><table><tr><th>name</th><th>task</th><th>result</th><th></th><th></th></tr>'
    + handed.map((o, i) => '<tr class="' + o.how.replace(' ', '') + '">' + td(safe(o.name || '-')) + td(safe(o.task || '-')) + td(o.how) + td(safe(o.why || '')) + td(o.trace ? '<button data-open="' + i + '">open</button>' : '') + '</tr>').join('') + '</table>';
}
function openHandInDialog() {
  $('handnote').textContent = task && taskSays()[0] !== 'done' ? 'The task isn\'t done yet.' : '';
  writeHandIn();
  $('handin').showModal();
}
function writeHandIn() { $('handlink').value = location.href.split('#')[0] + '#hand=' + coded(handInText()); }

// ---- where an address of these leads: #tour=3, #task=core, #tasks, #check, #hand=...
function goGuide(hash) {
  const [, word, rest] = /^#(tour|task|tasks|check|start|hand)(?:=(.*))?$/.exec(hash) || [];
  if (!word) return false;
  for (const d of document.querySelectorAll('dialog[open]')) d.close();
  if (word === 'tour') goTour((parseInt(rest, 10) || 1) - 1);
  else if (word === 'task' && taskOf(rest)) beginTask(rest);
  else if (word === 'tasks' || word === 'task') listTasks();
  else if (word === 'check') $('check').showModal();
  else if (word === 'hand') openHandIn(hash);
  else $('start').showModal();
  return true;
}
// the run has been changed by a hand
function ledOn() { if (touring()) leaveTour(); }
const moveView_ = moveView;
moveView = function () { moveView_(); rings(); };
const relay_ = relay;
// here the accounts are shut until a hand opens one: what may come next needs the room
relay = function () { relay_(); if (!folded) for (const b of document.querySelectorAll('.fold')) fold(b, true); rings(); };
function guides() {
  for (const i of document.querySelectorAll('#start .many')) i.textContent = i.closest('#starttour') ? TOUR.length : TASKS.length;
  const shut = f => () => { $('start').close(); f(); };
  $('starttour').onclick = shut(() => goTour(0));
  $('starttasks').onclick = $('gotasks').onclick = shut(listTasks);
  $('startown').onclick = shut(() => $('drawit').click());
  $('startopen').onclick = shut(() => $('open').click());
  $('startfree').onclick = shut(() => {});
  $('startcheck').onclick = shut(() => $('check').showModal());
  $('gotour').onclick = () => goTour(tourLast);
  $('gostart').onclick = () => $('start').showModal();
  $('moretools').onclick = () => { const all = $('tools').classList.toggle('all'); $('moretools').setAttribute('aria-expanded', all); $('moretools').textContent = all ? 'less' : 'more'; fitGuide(); };
  $('tasklist').onclick = e => { const b = e.target.closest('[data-task]'); if (b) beginTask(b.dataset.task); };
  $('guide').onclick = e => {
    const does = {
      tourback: () => goTour(tourAt - 1), tournext: () => tourAt === TOUR.length - 1 ? (leaveTour(), listTasks()) : goTour(tourAt + 1), tourleave: leaveTour,
      taskhint: () => { say(task.hint); }, taskover: () => { const was = stateNow(); wakeFirst = wakeOf(task); by = 0; load(EXAMPLES[task.graph], 'trace 0\n', 0); setTask(task.id); setAside(was, ''); },
      tasknext: () => beginTask(TASKS[(TASKS.indexOf(task) + 1) % TASKS.length].id), taskhand: openHandInDialog, tasklistgo: listTasks, taskleave: () => setTask(''),
    }[e.target.id];
    if (does) does();
  };
  $('guide').onchange = e => { if (e.target.name === 'answer') { answered = +e.target.value; guide(); } };
  $('say').onclick = ownGuess;
  $('guessing').checked = recall('guess') === 'yes';
  $('guessing').onchange = () => { recall('guess', $('guessing').checked ? 'yes' : 'no'); if (asking && guess && guess.own) move(at + 1); else offer(); };
  $('handit').onclick = openHandInDialog;
  $('handname').oninput = writeHandIn;
  // after a click a field for text keeps the keys
  $('handname').onclick = e => e.stopPropagation();
  $('handcopy').onclick = async () => { $('handlink').select(); let ok = false; try { await navigator.clipboard.writeText($('handlink').value); ok = true; } catch { ok = document.execCommand('copy'); } $('handnote').textContent = ok ? 'Copied.' : 'Copy it by hand: it is selected.'; };
  $('handsave').onclick = () => keep((task ? task.id : 'run') + '.hand', handInText());
  $('checkgo').onclick = () => checkAll($('checktext').value);
  $('checkopen').onclick = () => $('checkfiles').click();
  $('checkfiles').onchange = async e => { const texts = await Promise.all([...e.target.files].map(f => f.text())); e.target.value = ''; $('checktext').value = texts.map(x => x.replace(/\n*$/, '\n')).join(''); checkAll($('checktext').value); };
  $('checked').onclick = e => { const i = e.target.dataset.open; if (i === undefined) return; $('check').close(); showHandIn(handed[i]); };
  for (const id of ['tasks', 'rule', 'handin', 'check']) $('close' + id).onclick = () => $(id).close();
}
async function begin() {
  const led = ledIn(location.hash), graph = led ? led.graph : EXAMPLES.triangle, hash = location.hash;
  [wakeFirst, by] = led ? [led.first, led.by] : [false, 0];
  await power();
  let text = seenOf(graph, traceOf(led ? led.events : [])), fault = faultOf(text);
  if (fault) { [wakeFirst, by] = [false, 0]; text = seenOf(EXAMPLES.triangle, 'trace 0\n'); }
  graphText = '';
  $('steps').textContent = text;
  start();
  hands();
  document.querySelector('header b').textContent = 'ghs: lead a run';
  $('keys').innerHTML = '<table>' + KEYS.map(([k, t]) => '<tr>' + td(k) + td(t) + '</tr>').join('') + '</table><form method="dialog"><button>close</button></form>';
  graphText = fault ? EXAMPLES.triangle : graph;
  if (led && !fault && led.placed && led.placed.length === G.nodes) { placed = led.placed; unit = unitOf(placed); relay(); }
  offers = new Map([[G.to, choicesIn(text)]]);
  ended = hasEnded(text);
  dress();
  $('wakers').value = wakeFirst ? 'first' : '';
  $('example').value = Object.keys(EXAMPLES).find(name => EXAMPLES[name] === graphText) || '';
  $('what').textContent = G.nodes + ' nodes, ' + G.links + ' links, ' + G.events + ' events';
  document.title = 'ghs: how a network finds its minimum spanning tree';
  goto(led && !fault ? led.at : 0);
  show();
  if (led && !fault) setTaskOf(led);
  if (fault) refuse(fault);
  if (!goGuide(hash) && !led && hash.length < 2) $('start').showModal();
}
begin().catch(e => { const d = document.createElement('div'); d.className = 'bad'; d.id = 'fault'; d.textContent = 'This page cannot be shown: ' + e.message + '. It needs a browser with WebAssembly, its 64-bit numbers, deflated data, dialogs and mixed colors: Chromium 111, Firefox 113, Safari 16.4, or later.'; document.body.prepend(d); console.error(e); });
