'use strict';
// What a user's rules stand on. It runs in a Worker, which answers a question by a line and keeps nothing but the openings.
let ownNext = null;
class OwnNode {
  constructor() { Object.defineProperty(this, '$', { value: ownNext }); }
  start() {}
  wake() {}
  send(port, kind, ...args) { this.$.sends.push(port + '>' + kind + (args.length ? '(' + args.map(OwnText.of).join(',') + ')' : '')); }
  wait() { this.$.waits = true; }
  halt() { this.halted = true; }
  mark(port, mark) { (this.marks ??= this.ports.map(() => 'basic'))[port] = mark; }
  get number() { return this.$.number; }
  get keys() { return this.$.keys; }
  get ports() { return this.$.ports; }
}
// keys of links are compared by weight, then by the smaller end, then by the larger
const less = (a, b) => { const x = OwnText.key(a), y = OwnText.key(b); return x[0] - y[0] || x[1] - y[1] || x[2] - y[2]; };
const below = (a, b) => less(a, b) < 0;
class Unwritable extends Error {}
const OwnText = {
  // a value's text; what would be read as another value isn't written
  of(x) {
    if (x === null || x === undefined) return '-';
    if (x === true) return 'yes';
    if (x === false) return 'no';
    if (Array.isArray(x)) return '[' + x.map(OwnText.of).join(',') + ']';
    if (Number.isSafeInteger(x)) return String(x);
    if (typeof x === 'string' && /^(?:[A-Za-z_]\w*|\d+:\d+-\d+)$/.test(x) && x !== 'yes' && x !== 'no') return x;
    throw new Unwritable('it keeps or sends ' + (typeof x === 'object' ? 'an object' : typeof x + ' ' + String(x)) + '; it may keep whole numbers, words, keys, null, true, false, and lists of these');
  },
  parts(s) {
    const out = [];
    let depth = 0, at = 0;
    for (let i = 0; i < s.length; i++) {
      if (s[i] === '[') depth++;
      else if (s[i] === ']') depth--;
      else if (s[i] === ',' && !depth) { out.push(s.slice(at, i)); at = i + 1; }
    }
    if (s) out.push(s.slice(at));
    return out;
  },
  value(s) {
    if (s === '-') return null;
    if (s === 'yes') return true;
    if (s === 'no') return false;
    if (s[0] === '[') return OwnText.parts(s.slice(1, -1)).map(OwnText.value);
    return /^-?\d+$/.test(s) ? +s : s;
  },
  key: k => k.split(/[:-]/).map(Number),
};
// the rules as a function from a question to an answer
class OwnProgram {
  constructor(rules) { this.rules = rules; this.opened = new Map(); }
  greeting() {
    const kinds = Array.isArray(this.rules.kinds) ? Object.fromEntries(this.rules.kinds.map(k => [k, ''])) : this.rules.kinds;
    if (!Object.keys(kinds || {}).length) throw new Unwritable('the class has no static kinds = { KIND: TYPES }');
    return 'own 1 ' + this.rules.name.toLowerCase() + Object.entries(kinds).map(([kind, types]) => ' ' + kind + '(' + types + ')').join('');
  }
  make(v) {
    ownNext = { ...this.opened.get(v), sends: [], waits: false, sleeps: null };
    return new this.rules();
  }
  text(n) { return Object.keys(n).map(k => k + '=' + (k === 'marks' ? n.marks.map(OwnText.of).join(',') : OwnText.of(n[k]))).join(';'); }
  open(v, keys) {
    this.opened.set(v, Object.freeze({ number: v, keys: Object.freeze(keys), ports: Object.freeze(keys.map((_, p) => p)) }));
    const n = this.make(v);
    Object.assign(n, { asleep: true, halted: false });
    n.start();
    return this.text(n);
  }
  react(f) {
    const v = +f[1], n = this.make(v), wakes = f[0] === 'wake', work = wakes ? 'wake' : 'on_' + f[3].split('(')[0];
    for (const part of f[f.length - 1].split(';')) {
      const i = part.indexOf('='), k = part.slice(0, i), x = part.slice(i + 1);
      n[k] = k === 'marks' ? x ? x.split(',') : [] : OwnText.value(x);
    }
    // a node that got work is awake, unless its rules say otherwise
    const slept = n.asleep;
    Object.defineProperty(n, 'asleep', { enumerable: true, get: () => n.$.sleeps ?? slept, set: x => { n.$.sleeps = x; } });
    if (typeof n[work] !== 'function') throw Error('the node has no ' + work);
    const i = wakes ? -1 : f[3].indexOf('('), made = wakes ? n.wake() : n[work](+f[2], ...(i < 0 ? [] : OwnText.parts(f[3].slice(i + 1, -1)).map(OwnText.value)));
    if (made && typeof made.then === 'function') return null;
    n.$.sleeps ??= false;
    return [this.text(n), n.$.waits ? 'wait' : 'done', ...n.$.sends].join(' ');
  }
  // an answer, or null where the rule has none when it ends
  answer(question) {
    const f = question.split(' ');
    try {
      return f[0] === 'own' ? this.greeting() : f[0] === 'open' ? this.open(+f[1], f.slice(2)) : this.react(f);
    } catch (e) {
      if (e instanceof Unwritable) return '? ' + e.message;
      const at = /rules\.js:(\d+)/.exec(e && e.stack || '');
      return ('! ' + (e && e.name ? e.name + ': ' + e.message : 'it threw ' + e) + (at ? ' (line ' + at[1] + ')' : '')).replace(/[^ -~]+/g, ' ').slice(0, 2000);
    }
  }
}
// no rule reaches beyond its question
for (const name of ['fetch', 'XMLHttpRequest', 'WebSocket', 'EventSource', 'WebTransport', 'importScripts', 'Worker', 'BroadcastChannel', 'indexedDB', 'caches']) {
  try { Object.defineProperty(self, name, { value: undefined }); } catch { self[name] = undefined; }
}
const ownPost = self.postMessage.bind(self);
let ownProgram = null, ownClosed = false;
self.postMessage = undefined;
self.close = () => { ownClosed = true; throw Error('the rules end their own Worker'); };
self.onmessage = ({ data }) => {
  if (data.rules === undefined) {
    const answer = ownProgram.answer(data.question);
    ownPost(answer === null || ownClosed ? { silent: true } : { answer });
    return;
  }
  const names = [...data.rules.matchAll(/^\s*class\s+(\w+)\s+extends\s+\w+/gm)];
  if (!names.length) return ownPost({ amiss: 'the rules have no class NAME extends OwnNode' });
  try {
    const rules = (0, eval)('"use strict";' + data.rules + '\n;' + names[names.length - 1][1] + '\n//# sourceURL=rules.js');
    if (!(rules.prototype instanceof OwnNode)) return ownPost({ amiss: 'the class ' + rules.name + ' does not extend OwnNode' });
    ownProgram = new OwnProgram(rules);
    ownPost({ ready: true });
  } catch (e) {
    const at = /rules\.js:(\d+)/.exec(e && e.stack || '');
    ownPost({ amiss: 'the rules are refused: ' + (e && e.name ? e.name + ': ' + e.message : e) + (at ? ' (line ' + at[1] + ')' : ''), syntax: e instanceof SyntaxError });
  }
};
// the time of the rules begins now
ownPost({ started: true });
