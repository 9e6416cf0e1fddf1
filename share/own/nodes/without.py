"""GHS with a rule switched off, which is NOT the algorithm: ghs.py with other lines.

usage: python3 share/own/nodes/without.py RULE[,RULE]

TABLE has for each rule lines of ghs.py: `-` goes, `+` comes, and what stands behind a blank stays. The names are those of
page/own/why.json; `nothing` switches nothing off. The node gives up where no run of GHS comes (`entry`). The smaller end of a core
leads once it has halted, so that `--check leader` says if not one core has.
"""
import os
import re
import sys

from node import serve

HERE = os.path.dirname(os.path.realpath(__file__))
# how what GHS assumes of the network is called
NETWORK = re.compile(r'(defer|lose|overtake|ties|twice)(_| |$)')
TABLE = '''
nothing

report_no_wait
-        elif self.phase == 'find': self.wait()

sleeper_answers
     def on_test(self, j, level, name):
-        if self.asleep: self.wake()
+        if self.asleep:
+            self.wake()
+            return self.send(j, 'accept')

mark_any_reject
-        if self.marks[j] == 'basic': self.mark(j, 'rejected')
+        self.mark(j, 'rejected')

test_no_wait
-        if level > self.level: self.wait()
-        elif name != self.name: self.send(j, 'accept')
+        if name != self.name: self.send(j, 'accept')

absorb_tells_found
-            self.send(j, 'initiate', self.level, self.name, self.phase)
-            if self.phase == 'find': self.find_count += 1
+            self.send(j, 'initiate', self.level, self.name, 'found')

absorb_uncounted
-            if self.phase == 'find': self.find_count += 1

report_early
-        if self.find_count == 0 and self.probe is None:
+        if self.probe is None:

report_probe
-        if self.find_count == 0 and self.probe is None:
+        if self.find_count == 0 and self.phase == 'find':

mark_any_test
-            if self.marks[j] == 'basic': self.mark(j, 'rejected')
+            self.mark(j, 'rejected')

test_greatest
-        self.probe = next((i for i in self.ports if self.marks[i] == 'basic'), None)
+        self.probe = next((i for i in reversed(self.ports) if self.marks[i] == 'basic'), None)

wake_greatest
-        self.mark(0, 'branch')
-        self.send(0, 'connect', 0)
+        self.mark(self.ports[-1], 'branch')
+        self.send(self.ports[-1], 'connect', 0)

halt_other
         elif self.phase == 'find': self.wait()
+        elif key is None: self.halt()

both_move
-        elif self.best is not None and (key is None or key > self.best[1]): self.change_root()
+        elif self.best is not None: self.change_root()

old_name
-        else: self.send(j, 'initiate', self.level + 1, self.keys[j], 'find')
+        else: self.send(j, 'initiate', self.level + 1, self.name, 'find')

absorb_no_mark
-            self.mark(j, 'branch')

absorb_raises
-            self.send(j, 'initiate', self.level, self.name, self.phase)
+            self.send(j, 'initiate', self.level + 1, self.name, self.phase)

merge_basic
-        elif self.marks[j] == 'basic': self.wait()
-        else: self.send(j, 'initiate', self.level + 1, self.keys[j], 'find')
+        else:
+            self.mark(j, 'branch')
+            self.send(j, 'initiate', self.level + 1, self.keys[j], 'find')

accept_always
-        self.better(j, self.keys[j])
+        self.best = (j, self.keys[j])

report_always
-            self.better(j, key)
+            if key is not None: self.best = (j, key)

absorb_equal
-        if level < self.level:
+        if level <= self.level:

no_raise
-        else: self.send(j, 'initiate', self.level + 1, self.keys[j], 'find')
+        else: self.send(j, 'initiate', self.level, self.keys[j], 'find')

connect_zero
-            self.send(b, 'connect', self.level)
+            self.send(b, 'connect', 0)

absorb_tells_find
-            self.send(j, 'initiate', self.level, self.name, self.phase)
+            self.send(j, 'initiate', self.level, self.name, 'find')

cross_both
-            if self.probe != j: self.send(j, 'reject')
-            else: self.search()
+            self.send(j, 'reject')
+            if self.probe == j: self.search()

best_kept
-        self.level, self.name, self.phase, self.in_branch, self.best = level, name, phase, j, None
+        self.level, self.name, self.phase, self.in_branch = level, name, phase, j

in_branch_kept
-        self.level, self.name, self.phase, self.in_branch, self.best = level, name, phase, j, None
+        self.level, self.name, self.phase, self.best = level, name, phase, None
+        if self.in_branch is None: self.in_branch = j

reject_forgotten
-        if self.marks[j] == 'basic': self.mark(j, 'rejected')

test_not_marked
-            if self.marks[j] == 'basic': self.mark(j, 'rejected')

cross_ignore
-            else: self.search()

no_absorb
-        if level < self.level:
-            self.mark(j, 'branch')
-            self.send(j, 'initiate', self.level, self.name, self.phase)
-            if self.phase == 'find': self.find_count += 1
+        if level < self.level: self.wait()

move_no_mark
-            self.mark(b, 'branch')

root_not_forwarded
-        if self.marks[b] == 'branch': self.send(b, 'changeroot')
-        else:
+        if self.marks[b] != 'branch':

search_not_forwarded
-                self.send(i, 'initiate', level, name, phase)
-                if phase == 'find': self.find_count += 1
+                if phase != 'find': self.send(i, 'initiate', level, name, phase)

test_waits_below
-        if level > self.level: self.wait()
+        if level != self.level: self.wait()

never_halt
-        elif key is None and self.best is None: self.halt()

cross_reject
-            if self.probe != j: self.send(j, 'reject')
-            else: self.search()
+            self.send(j, 'reject')

forget_at_initiate
-        if phase == 'find': self.search()
+        if phase == 'find':
+            self.marks = ['basic' if it == 'rejected' else it for it in self.marks]
+            self.search()

reset_find_count
-        self.level, self.name, self.phase, self.in_branch, self.best = level, name, phase, j, None
+        self.level, self.name, self.phase, self.in_branch, self.best, self.find_count = level, name, phase, j, None, 0
'''
RULES = {name: lines for name, *lines in (it.split('\n') for it in TABLE.strip('\n').split('\n\n'))}


class Refused(Exception):
    """What is asked for switches nothing off."""


def lines_of(name):
    """The lines that a rule changes."""
    if NETWORK.match(name):
        raise Refused(f'{name}: no rule of a node, but what GHS assumes of the network; page/own.html and bench/why switch it off, and share/own/faults lets messages fail')
    if name not in RULES: raise Refused(f'{name}: no such rule. There are: {", ".join(RULES)}')
    return RULES[name]


def changed(text, names):
    """The text of ghs.py without these rules."""
    lines = text.split('\n')
    for name in names:
        old, new = ([it[1:] for it in lines_of(name) if it[0] in sign] for sign in (' -', ' +'))
        places = [at for at in range(len(lines)) if old and lines[at:at + len(old)] == old]
        if len(places) != bool(old):
            raise Refused('\n'.join([f'{name}: ghs.py has these lines {len(places)} times:', *old]))
        for at in places: lines[at:at + len(old)] = new
    return '\n'.join(lines)


class NoRule(Exception):
    """The node gives up: no run of GHS comes here."""


def entry(n, kind, j, args):
    """Where no run of GHS comes: an entry of "What has no rule" in docs/PROTOCOL.md, or a node that absorbs after it has halted."""
    if n.halted and kind == 'connect' and n.marks[j] != 'branch': return 'Halted_too_early'
    if n.asleep and kind not in ('connect', 'test'): return 'Still_asleep'
    if kind == 'initiate' and args[0] <= n.level: return 'Initiate_too_low'
    if kind in ('accept', 'reject') and n.probe != j: return kind.capitalize() + '_untested'
    if kind == 'report' and j != n.in_branch and n.find_count <= 0: return 'Report_unowed'
    if kind == 'changeroot' and n.best is None: return 'Root_without_best'
    if kind == 'connect' and args[0] >= n.level >= 20: return 'Merge_above_levels'
    return None


def guarded(kind, rule):
    def react(n, j, *args):
        found = entry(n, kind, j, args)
        if found: raise NoRule(found)
        rule(n, j, *args)
        if n.find_count > len(n.ports): raise NoRule('Absorbs_too_many' if kind == 'connect' else 'Searches_too_many')
    return react


def node_of(names):
    """The node without these rules."""
    with open(os.path.join(HERE, 'ghs.py'), encoding='ascii') as file:
        space = {'__name__': 'ghs'}
        exec(compile(changed(file.read(), names), 'ghs.py with other lines', 'exec'), space)

    class Without(space['Ghs']):
        protocol = 'ghs_without_' + '_and_'.join(names)

        def halt(self):
            super().halt()
            self.leader = not self.ports or self.number == self.keys[self.in_branch][1]

    for kind in Without.kinds:
        setattr(Without, 'on_' + kind, guarded(kind, getattr(Without, 'on_' + kind)))
    return Without


if __name__ == '__main__':
    if len(sys.argv) != 2: sys.exit(__doc__)
    try: rules = node_of(sys.argv[1].split(','))
    except Refused as refused: sys.exit(f'without: {refused}')
    serve(rules)
