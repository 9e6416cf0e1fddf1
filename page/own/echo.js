// Echo: the node that wakes asks all others; each answers when all that it asked have answered.
class Echo extends OwnNode {
  static kinds = { explore: '', back: '' };
  wake(parent = null) {
    Object.assign(this, { parent, awaits: this.ports.length - (parent === null ? 0 : 1) });
    for (const p of this.ports) if (p !== parent) this.send(p, 'explore');
    this.close();
  }
  on_explore(p) { if (this.asleep) this.wake(p); else this.heard(); }
  on_back(p) { this.mark(p, 'branch'); this.heard(); }
  heard() { this.awaits--; this.close(); }
  close() {
    if (this.awaits > 0) return;
    if (this.parent !== null) { this.mark(this.parent, 'branch'); this.send(this.parent, 'back'); }
    this.halt();
  }
}
