// GHS: the algorithm of Gallager, Humblet and Spira.
class Ghs extends OwnNode {
  static kinds = { connect: 'level', initiate: 'level,key,bit', test: 'level,key', accept: '', reject: '', report: 'key?', changeroot: '' };
  start() {
    this.marks = this.ports.map(() => 'basic');
    Object.assign(this, { level: 0, name: null, phase: 'sleeping', find_count: 0, in_branch: null, best: null, probe: null });
  }
  wake() {
    this.phase = 'found';
    if (this.ports.length === 0) return this.halt();
    this.mark(0, 'branch');
    this.send(0, 'connect', 0);
  }
  on_connect(j, level) {
    if (this.asleep) this.wake();
    if (level < this.level) {
      this.mark(j, 'branch');
      this.send(j, 'initiate', this.level, this.name, this.phase);
      if (this.phase === 'find') this.find_count++;
    } else if (this.marks[j] === 'basic') this.wait();
    else this.send(j, 'initiate', this.level + 1, this.keys[j], 'find');
  }
  on_initiate(j, level, name, phase) {
    Object.assign(this, { level, name, phase, in_branch: j, best: null });
    for (const i of this.ports) if (i !== j && this.marks[i] === 'branch') {
      this.send(i, 'initiate', level, name, phase);
      if (phase === 'find') this.find_count++;
    }
    if (phase === 'find') this.search();
  }
  search() {
    const p = this.marks.indexOf('basic');
    this.probe = p < 0 ? null : p;
    if (p < 0) this.report(); else this.send(p, 'test', this.level, this.name);
  }
  on_test(j, level, name) {
    if (this.asleep) this.wake();
    if (level > this.level) this.wait();
    else if (name !== this.name) this.send(j, 'accept');
    else {
      if (this.marks[j] === 'basic') this.mark(j, 'rejected');
      if (this.probe !== j) this.send(j, 'reject'); else this.search();
    }
  }
  on_accept(j) { this.probe = null; this.better(j, this.keys[j]); this.report(); }
  on_reject(j) { if (this.marks[j] === 'basic') this.mark(j, 'rejected'); this.search(); }
  better(j, key) { if (key !== null && (this.best === null || below(key, this.best[1]))) this.best = [j, key]; }
  report() {
    if (this.find_count > 0 || this.probe !== null) return;
    this.phase = 'found';
    this.send(this.in_branch, 'report', this.best && this.best[1]);
  }
  on_report(j, key) {
    if (j !== this.in_branch) { this.find_count--; this.better(j, key); this.report(); }
    else if (this.phase === 'find') this.wait();
    else if (this.best !== null && (key === null || below(this.best[1], key))) this.on_changeroot();
    else if (key === null && this.best === null) this.halt();
  }
  on_changeroot() {
    const b = this.best[0];
    if (this.marks[b] === 'branch') this.send(b, 'changeroot');
    else { this.send(b, 'connect', this.level); this.mark(b, 'branch'); }
  }
}
