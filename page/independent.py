#!/usr/bin/env python3
"""The steps of a stored run, played by a program that shares nothing with `ghs`: what its texts are compared with.

    page/independent.py GRAPH TRACE [--protocol ghs|boruvka|echo|gather] [--json | --page | --html] [--from A] [--to B] [--node V]

It plays the events of a trace by the node's procedures as docs/PROTOCOL.md states them, or by the rules of Borůvka in step, of the
echo wave or of Gather as docs/class/COMPARE.md does, and writes what each of them changed: its steps as text or as JSON Lines, the data of its page, or
the page (docs/FORMATS.md). Parallel links, loops and graphs in pieces are taken.
"""
import argparse
import json
import os
import sys
from collections import deque

HERE = os.path.dirname(os.path.abspath(__file__))
BASIC, BRANCH, REJECTED = 'basic', 'branch', 'rejected'
ASKED, INSIDE, PARENT, CHILD = 'asked', 'inside', 'parent', 'child'
KINDS = ['connect', 'initiate', 'test', 'accept', 'reject', 'report', 'changeroot']
INF = (1 << 64, 0, 0)
# what a message has behind its kind; an Initiate has a phase in GHS alone, and an Explore a wave in Gather alone
PARTS = {'connect': ('level',), 'initiate': ('level', 'key', 'phase'), 'test': ('level', 'key'), 'name': ('level', 'key'), 'report': ('key',),
         'explore': ('wave',), 'back': ('wave', 'links'), 'tree': ('links',)}


def read_gr(text):
    n, keys = 0, set()
    for line in text.split('\n'):
        f = line.split()
        if not f or f[0].startswith('c'):
            continue
        if f[0] == 'p':
            n = int(f[2])
        else:
            u, v, w = map(int, f[1:])
            if u != v:
                keys.add((w, min(u, v), max(u, v)))
    return n, sorted(keys)


def protocol_of(text):
    """The protocol that a trace's head names."""
    head = text.split('\n')[0].split()
    return head[1] if len(head) == 3 else 'ghs'


def read_trace(text):
    events = []
    for line in text.split('\n')[1:]:
        f = line.split()
        if f:
            events.append((int(f[1]), int(f[2]) if f[0] == 'take' else None))
    return events


def key_text(k):
    return '-' if k is None else '%d:%d-%d' % k


def lengths(n, keys):
    """How many bits a message has in a network, as docs/class/COMPARE.md says: a function of the message."""
    def needs(greatest):
        return max(1, greatest.bit_length())
    key = 2 * needs(n) + needs(max((weight for weight, _, _ in keys), default=0))
    widths = {'level': needs(n.bit_length() - 1), 'key': key, 'phase': 1, 'wave': needs(n)}

    def of_kind(m):
        # the Explore of the echo wave carries nothing
        return 1 if m in (('explore',), ('echo',)) else 2 if m[0] in ('explore', 'back', 'tree') else 3

    def of_part(part, x):
        return needs(len(keys)) + key * len(x) if part == 'links' else widths[part]

    def length(m):
        parts = zip(PARTS.get(m[0], ()), m[1:])
        return of_kind(m) + (m[0] == 'report') + sum(of_part(part, x) for part, x in parts if x is not None)
    return length


class Node:
    """What a node of GHS knows."""

    def __init__(self, degree):
        self.marks = [BASIC] * degree
        self.level, self.name, self.phase, self.find_count = 0, None, 'sleeping', 0
        self.in_branch = self.best = self.probe = None
        self.halted = False

    VARS = ('level', 'name', 'phase', 'find_count', 'in_branch', 'best', 'probe', 'halted')

    def shot(self):
        return list(self.marks), {x: getattr(self, x) for x in self.VARS}


class Played:
    """A network that is played event by event. Who inherits has `react`: a node takes a message, or wakes."""

    def __init__(self, n, keys):
        self.n, self.keys = n, keys
        self.ports = [[] for _ in range(n + 1)]       # (key, far, far_port)
        for k in keys:
            _, a, b = k
            pa, pb = len(self.ports[a]), len(self.ports[b])
            self.ports[a].append((k, b, pb))
            self.ports[b].append((k, a, pa))
        self.nodes = [None] + [self.NODE(len(self.ports[v])) for v in range(1, n + 1)]
        self.queues = {}
        self.sent = dict.fromkeys(self.KINDS, 0)
        self.consumed = dict.fromkeys(self.KINDS, 0)
        self.length = lengths(n, keys)
        self.bits = dict.fromkeys(self.KINDS, 0)
        self.longest = 0
        self.requeued = 0
        self.events = 0
        self.bound = self.most(n, len(keys), n.bit_length() - 1)

    def queue(self, v, p):
        return self.queues.setdefault((v, p), deque())

    def play(self, event):
        """One event; gives the step."""
        v, p = event
        m, far = None, None
        if p is not None:
            q = self.queue(v, p)
            if not q:
                raise SystemExit('event %d is not lawful' % (self.events + 1))
            m, far = q.popleft(), self.ports[v][p][1]
        elif self.nodes[v].phase != 'sleeping':
            raise SystemExit('event %d is not lawful' % (self.events + 1))
        marks, old = self.nodes[v].shot()
        row, requeued, out = self.react(v, p, m)
        marks2, new = self.nodes[v].shot()
        if requeued:
            self.queue(v, p).append(m)
            self.requeued += 1
        elif m is not None:
            self.consumed[m[0]] += 1
        for j, x in out:
            _, f, fp = self.ports[v][j]
            self.queue(f, fp).append(x)
            self.sent[x[0]] += 1
            self.bits[x[0]] += self.length(x)
            self.longest = max(self.longest, self.length(x))
        self.events += 1
        changed = [(i, b) for i, (a, b) in enumerate(zip(marks, marks2)) if a != b]
        assert len(changed) <= 1 or self.PROTOCOL != 'ghs'
        return dict(number=self.events, node=v, port=p, far=far, message=m, row=row,
                    fate='-' if m is None else 'waits' if requeued else 'done',
                    mark=changed[0] if changed else None, marks=changed,
                    set={x: new[x] for x in self.NODE.VARS if new[x] != old[x]},
                    sends=[(j, self.ports[v][j][1], self.ports[v][j][2], x) for j, x in out],
                    sent=sum(self.sent.values()))


class Net(Played):
    """A network whose nodes follow GHS."""
    PROTOCOL, KINDS, NODE = 'ghs', KINDS, Node
    MARKS, PHASES = (BASIC, BRANCH, REJECTED), ('sleeping', 'found', 'find')
    ROWS = ('Wakes', 'Wakes_alone', 'Woken_merges', 'Woken_connect_waits', 'Woken_test_waits', 'Woken_accepts', 'Connect_absorbed', 'Connect_waits',
            'Connect_merges', 'Initiate_rests', 'Initiate_searches', 'Test_waits', 'Test_accepted', 'Test_rejected', 'Tests_cross', 'Accept_heard',
            'Reject_heard', 'Report_heard', 'Report_waits', 'Report_moves_root', 'Root_moves', 'Report_halts', 'Report_passes')

    @staticmethod
    def most(n, links, k):
        return 2 * links + 5 * n * k

    # The procedures of a node. `out` gets the sends.
    def wakeup(self, s, out):
        if not s.marks:
            s.phase, s.halted = 'found', True
            return
        s.marks[0], s.level, s.phase, s.find_count = BRANCH, 0, 'found', 0
        out.append((0, ('connect', 0)))

    def test(self, s, out):
        p = next((i for i, m in enumerate(s.marks) if m == BASIC), None)
        s.probe = p
        if p is not None:
            out.append((p, ('test', s.level, s.name)))
        else:
            self.report(s, out)

    def report(self, s, out):
        if s.find_count == 0 and s.probe is None:
            s.phase = 'found'
            out.append((s.in_branch, ('report', s.best[1] if s.best else None)))

    def change_root(self, s, out):
        b = s.best[0]
        if s.marks[b] == BRANCH:
            out.append((b, ('changeroot',)))
        else:
            out.append((b, ('connect', s.level)))
            s.marks[b] = BRANCH

    def react(self, v, j, m):
        """Gives (row, requeued, sends) and changes the node."""
        s, out = self.nodes[v], []
        if m is None:
            self.wakeup(s, out)
            return ('Wakes' if s.marks else 'Wakes_alone'), False, out
        w = self.ports[v][j][0]
        slept = s.phase == 'sleeping'
        best = s.best[1] if s.best else INF
        kind = m[0]
        if slept:
            assert kind in ('connect', 'test'), 'unforeseen'
            self.wakeup(s, out)
        if kind == 'connect':
            if m[1] < s.level:
                s.marks[j] = BRANCH
                out.append((j, ('initiate', s.level, s.name, s.phase)))
                if s.phase == 'find':
                    s.find_count += 1
                return 'Connect_absorbed', False, out
            if s.marks[j] == BASIC:
                return ('Woken_connect_waits' if slept else 'Connect_waits'), True, out
            out.append((j, ('initiate', s.level + 1, w, 'find')))
            return ('Woken_merges' if slept else 'Connect_merges'), False, out
        if kind == 'initiate':
            _, s.level, s.name, s.phase = m
            s.in_branch, s.best = j, None
            for i, mark in enumerate(s.marks):
                if i != j and mark == BRANCH:
                    out.append((i, m))
                    if s.phase == 'find':
                        s.find_count += 1
            if s.phase == 'find':
                self.test(s, out)
                return 'Initiate_searches', False, out
            return 'Initiate_rests', False, out
        if kind == 'test':
            if m[1] > s.level:
                return ('Woken_test_waits' if slept else 'Test_waits'), True, out
            if m[2] != s.name:
                out.append((j, ('accept',)))
                return ('Woken_accepts' if slept else 'Test_accepted'), False, out
            if s.marks[j] == BASIC:
                s.marks[j] = REJECTED
            if s.probe != j:
                out.append((j, ('reject',)))
                return 'Test_rejected', False, out
            self.test(s, out)
            return 'Tests_cross', False, out
        if kind == 'accept':
            assert s.probe == j, 'unforeseen'
            s.probe = None
            if w < best:
                s.best = (j, w)
            self.report(s, out)
            return 'Accept_heard', False, out
        if kind == 'reject':
            assert s.probe == j, 'unforeseen'
            if s.marks[j] == BASIC:
                s.marks[j] = REJECTED
            self.test(s, out)
            return 'Reject_heard', False, out
        if kind == 'report':
            r = m[1] if m[1] is not None else INF
            if j != s.in_branch:
                assert s.find_count > 0, 'unforeseen'
                s.find_count -= 1
                if r < best:
                    s.best = (j, m[1])
                self.report(s, out)
                return 'Report_heard', False, out
            if s.phase == 'find':
                return 'Report_waits', True, out
            if r > best:
                self.change_root(s, out)
                return 'Report_moves_root', False, out
            if m[1] is None and s.best is None:
                s.halted = True
                return 'Report_halts', False, out
            return 'Report_passes', False, out
        self.change_root(s, out)
        return 'Root_moves', False, out


class StepNode(Node):
    """What a node of Borůvka in step knows."""

    def __init__(self, degree):
        self.marks = [BASIC] * degree
        self.level, self.name, self.phase = 0, None, 'sleeping'
        self.parent = self.best = self.out = None
        self.halted = False
        # how many Reports are owed to it, and of each port the last level and name that was heard there
        self.owed, self.heard = 0, [(0, None)] * degree

    VARS = ('level', 'name', 'phase', 'parent', 'best', 'out', 'halted')

    def basics(self):
        return [p for p, mark in enumerate(self.marks) if mark in (BASIC, ASKED)]


class StepNet(Played):
    """A network whose nodes follow Borůvka in step. A method is a line of the rules, and `sends` gets what it sends."""
    PROTOCOL, KINDS, NODE = 'boruvka', ['connect', 'initiate', 'name', 'report', 'changeroot'], StepNode
    MARKS, PHASES = (BASIC, ASKED, BRANCH, INSIDE), ('sleeping', 'rest', 'search')
    ROWS = ('Wakes', 'Connect_noted', 'Connect_core', 'Connect_late', 'Initiate_enters', 'Name_heard', 'Report_heard', 'Root_moves')

    @staticmethod
    def most(n, links, k):
        return 2 * links * k + 3 * n * k + n

    def wakes(self, v, sends):
        s = self.nodes[v]
        s.phase = 'rest'
        if not s.marks:
            s.halted = True
        else:
            self.goes_out(v, 0, sends)

    def goes_out(self, v, p, sends):
        s = self.nodes[v]
        s.out = p
        sends.append((p, ('connect', s.level)))
        if s.marks[p] == ASKED:
            self.core(v, p, sends)

    def core(self, v, p, sends):
        key, far, _ = self.ports[v][p]
        if v < far:
            self.enters(v, self.nodes[v].level + 1, key, None, sends)

    def enters(self, v, level, name, parent, sends):
        s = self.nodes[v]
        s.level, s.name, s.phase, s.parent, s.best, s.owed = level, name, 'search', parent, None, 0
        joins = [p for p, mark in enumerate(s.marks) if mark == ASKED or p == s.out]
        for p in joins:
            s.marks[p] = BRANCH
        s.out = None
        # what goes out over a port doesn't depend on other ports, so all stand in the order of ports
        for p, mark in enumerate(list(s.marks)):
            if mark == BRANCH and p != parent:
                sends.append((p, ('initiate', level, name)))
                s.owed += 1
            if mark == BASIC:
                sends.append((p, ('name', level, name)))
                if s.heard[p] == (level, name):
                    s.marks[p] = INSIDE
        self.close(v, sends)

    def close(self, v, sends):
        s = self.nodes[v]
        basics = s.basics()
        if s.phase != 'search' or s.owed or any(s.heard[p][0] < s.level for p in basics):
            return
        links = [s.best] if s.best else []
        if basics:
            links.append((basics[0], self.ports[v][basics[0]][0]))
        s.best = min(links, key=lambda link: link[1], default=None)
        s.phase = 'rest'
        if s.parent is not None:
            sends.append((s.parent, ('report', s.best and s.best[1])))
        elif s.best is None:
            s.halted = True
        else:
            self.moves(v, sends)

    def moves(self, v, sends):
        s = self.nodes[v]
        p = s.best[0]
        if s.marks[p] == BRANCH:
            sends.append((p, ('changeroot',)))
        else:
            self.goes_out(v, p, sends)

    def react(self, v, j, m):
        """Gives (row, whether the message is put back, sends) and changes the node."""
        s, sends = self.nodes[v], []
        if m is None:
            self.wakes(v, sends)
            return 'Wakes', False, sends
        if s.phase == 'sleeping':
            self.wakes(v, sends)
        kind, *parts = m
        if kind == 'connect' and parts[0] == s.level:
            s.marks[j] = ASKED
            row = 'Connect_core' if s.out == j else 'Connect_noted'
            if s.out == j:
                self.core(v, j, sends)
        elif kind == 'connect':
            assert parts[0] == s.level - 1, 'unforeseen'
            row, s.marks[j] = 'Connect_late', BRANCH
            sends.append((j, ('initiate', s.level, s.name)))
            s.owed += 1
        elif kind == 'initiate':
            assert parts[0] == s.level + 1, 'unforeseen'
            row = 'Initiate_enters'
            self.enters(v, *parts, j, sends)
        elif kind == 'name':
            row, s.heard[j] = 'Name_heard', tuple(parts)
            if s.heard[j] == (s.level, s.name) and s.marks[j] in (BASIC, ASKED):
                s.marks[j] = INSIDE
            self.close(v, sends)
        elif kind == 'report':
            assert s.owed > 0, 'unforeseen'
            row, s.owed = 'Report_heard', s.owed - 1
            if parts[0] is not None and (s.best is None or parts[0] < s.best[1]):
                s.best = (j, parts[0])
            self.close(v, sends)
        else:
            row = 'Root_moves'
            self.moves(v, sends)
        return row, False, sends


class WaveNode(Node):
    """What a node of the echo wave knows. It has no name of a fragment."""
    name = None

    def __init__(self, degree):
        self.marks = [BASIC] * degree
        self.phase, self.parent, self.awaits, self.halted = 'sleeping', None, 0, False

    VARS = ('phase', 'parent', 'awaits', 'halted')


class WaveNet(Played):
    """A network through which the echo wave goes."""
    PROTOCOL, KINDS, NODE = 'echo', ['explore', 'echo'], WaveNode
    MARKS, PHASES = (BASIC, ASKED, PARENT), ('sleeping', 'asking', 'answered')
    ROWS = ('Wakes', 'Joins', 'Hears')

    @staticmethod
    def most(n, links, k):
        return 2 * links

    def joins(self, s, parent, sends):
        s.phase, s.parent = 'asking', parent
        for p in range(len(s.marks)):
            s.marks[p] = PARENT if p == parent else ASKED
            if p != parent:
                s.awaits += 1
                sends.append((p, ('explore',)))
        self.close(s, sends)

    def close(self, s, sends):
        if s.awaits == 0:
            s.phase, s.halted = 'answered', s.parent is None
            if s.parent is not None:
                sends.append((s.parent, ('echo',)))

    def react(self, v, j, m):
        """Gives (row, whether the message is put back, sends) and changes the node."""
        s, sends = self.nodes[v], []
        if s.phase == 'sleeping':
            self.joins(s, j, sends)
            return ('Wakes' if m is None else 'Joins'), False, sends
        assert s.awaits > 0, 'unforeseen'
        s.awaits -= 1
        self.close(s, sends)
        return 'Hears', False, sends


class GatherNode(Node):
    """What a node of Gather knows; `brought` are the links that each child has sent."""
    name = None

    def __init__(self, degree):
        self.marks, self.brought = [BASIC] * degree, [None] * degree
        self.phase, self.wave, self.parent, self.awaits, self.halted = 'sleeping', 0, None, 0, False

    VARS = ('phase', 'wave', 'parent', 'awaits', 'halted')


class GatherNet(Played):
    """A network whose leader gathers the links."""
    PROTOCOL, KINDS, NODE = 'gather', ['explore', 'back', 'tree'], GatherNode
    MARKS, PHASES = (BASIC, CHILD, BRANCH), ('sleeping', 'asking', 'answered')
    ROWS = ('Wakes', 'Joins', 'Leaves', 'Hears', 'Gathers', 'Ignores', 'Told')

    @staticmethod
    def most(n, links, k):
        return 2 * links * n + n - 1

    def own(self, v):
        return [key for key, _, _ in self.ports[v]]

    def joins(self, v, wave, parent, sends):
        s = self.nodes[v]
        s.phase, s.wave, s.parent, s.awaits = 'asking', wave, parent, 0
        for p, mark in enumerate(s.marks):
            s.brought[p] = None
            s.marks[p] = BASIC if mark == CHILD else mark
            if p != parent:
                s.awaits += 1
                sends.append((p, ('explore', wave)))
        self.close(v, sends)

    def close(self, v, sends):
        s = self.nodes[v]
        if s.awaits:
            return
        s.phase = 'answered'
        known = self.forest(self.own(v) + [key for links in s.brought if links for key in links])
        if s.parent is None:
            self.told(v, known, sends)
        else:
            sends.append((s.parent, ('back', s.wave, known)))

    def forest(self, keys):
        least, kept = list(range(self.n + 1)), []
        for key in sorted(set(keys)):
            a, b = least[key[1]], least[key[2]]
            if a != b:
                kept.append(key)
                least = [a if part == b else part for part in least]
        return kept

    def told(self, v, tree, sends):
        s = self.nodes[v]
        s.halted = True
        for p, key in enumerate(self.own(v)):
            s.marks[p] = BRANCH if key in tree else CHILD if s.brought[p] is not None else BASIC
            if s.brought[p] is not None:
                sends.append((p, ('tree', [key for key in tree if key in s.brought[p]])))

    def react(self, v, j, m):
        """Gives (row, whether the message is put back, sends) and changes the node."""
        s, sends = self.nodes[v], []
        if m is None:
            self.joins(v, v, None, sends)
            return 'Wakes', False, sends
        if m[0] == 'tree':
            self.told(v, m[1], sends)
            return 'Told', False, sends
        if m[0] == 'explore' and (not s.wave or m[1] < s.wave):
            row = 'Leaves' if s.wave else 'Joins'
            self.joins(v, m[1], j, sends)
            return row, False, sends
        if m[1] != s.wave:
            return 'Ignores', False, sends
        assert s.awaits > 0, 'unforeseen'
        s.awaits -= 1
        if m[0] == 'back':
            s.brought[j] = m[2]
            s.marks[j] = CHILD
        self.close(v, sends)
        return ('Gathers' if m[0] == 'back' else 'Hears'), False, sends


NETS = {net.PROTOCOL: net for net in (Net, StepNet, WaveNet, GatherNet)}


# ---- text

def part_text(part, x):
    if part == 'links':
        return ','.join(map(key_text, x))
    return key_text(x) if part == 'key' else str(x)


def message_text(m):
    if m is None:
        return 'wake'
    parts = [part_text(part, x) for part, x in zip(PARTS.get(m[0], ()), m[1:])]
    return m[0] + ('(' + ','.join(parts) + ')' if parts else '')


def value_text(x, y):
    if x == 'name':
        return key_text(y)
    if x == 'best':
        return '-' if y is None else '%d@%s' % (y[0], key_text(y[1]))
    if x == 'halted':
        return 'yes' if y else 'no'
    return '-' if y is None else str(y)


def text_line(s):
    dash = lambda x: '-' if x is None else str(x)
    changes = ['mark.%d=%s' % mark for mark in s['marks']]
    changes += ['%s=%s' % (x, value_text(x, y)) for x, y in s['set'].items()]
    sends = ['%d>%d:%s' % (j, f, message_text(x)) for j, f, _, x in s['sends']]
    return ' '.join([str(s['number']), str(s['node']), dash(s['port']), dash(s['far']), message_text(s['message']),
                     s['row'], s['fate'], ';'.join(changes) or '-', ';'.join(sends) or '-', str(s['sent'])])


# ---- JSON Lines

def message_json(m):
    parts = zip(PARTS.get(m[0], ()), m[1:])
    return {'kind': m[0], **{part: part_json(part, x) for part, x in parts}}


def part_json(part, x):
    if part == 'links':
        return [key_text(key) for key in x]
    return key_text(x) if part == 'key' and x is not None else x


def value_json(x, y):
    if x == 'name':
        return None if y is None else key_text(y)
    if x == 'best':
        return None if y is None else [y[0], key_text(y[1])]
    return y


def line(o):
    return json.dumps(o, separators=(',', ':')) + '\n'


def step_json(net, s):
    o = {'step': s['number'], 'node': s['node'], 'port': s['port'], 'far': s['far']}
    o.update({'kind': 'wake'} if s['message'] is None else message_json(s['message']))
    o['row'] = s['row']
    o['fate'] = None if s['fate'] == '-' else s['fate']
    if net.PROTOCOL == 'ghs':
        o['mark'] = None if s['mark'] is None else list(s['mark'])
    else:
        o['marks'] = [list(mark) for mark in s['marks']]
    o['set'] = {x: value_json(x, y) for x, y in s['set'].items()}
    o['send'] = [dict(port=j, to=f, at=fp, **message_json(x)) for j, f, fp, x in s['sends']]
    o['total'] = s['sent']
    return o


def ledger_json(net):
    return {'sent': [net.sent[k] for k in net.KINDS], 'consumed': [net.consumed[k] for k in net.KINDS],
            'requeued': net.requeued, 'queued': sum(map(len, net.queues.values()))}


def protocol_line(net):
    """What tells a page of the protocol, held to what is known of it here."""
    with open(os.path.join(HERE, 'protocols', net.PROTOCOL + '.json'), encoding='ascii') as file:
        text = file.read()
    told = json.loads(text)
    opening = {x: value_json(x, y) for x, y in net.NODE(0).shot()[1].items()}
    has = {kind['kind']: tuple(kind['has']) for kind in told['kinds']}
    known = (
        ('name', next(iter(told.items())) == ('protocol', net.PROTOCOL)),
        ('kinds', list(has) == net.KINDS and all(has[k] == PARTS.get(k, ())[:len(has[k])] for k in has)),
        ('the phase of an Initiate', ('phase' in has.get('initiate', ())) == (net.PROTOCOL == 'ghs')),
        ('letters', len({kind['letter'] for kind in told['kinds']}) == len(has)),
        ('bits', all(kind['bits'] == ({'echo': 1, 'gather': 2}.get(net.PROTOCOL) or 3 + ('phase' in kind['has']) + (kind['kind'] == 'report'))
                     for kind in told['kinds'])),
        ('marks', tuple(mark['mark'] for mark in told['marks']) == net.MARKS),
        ('phases', tuple(phase['phase'] for phase in told['phases']) == net.PHASES),
        ('opening', list(told['opening'].items()) == list(opening.items())),
        ('variables', sorted(x for row in told['variables'] for x in row) == sorted(opening)),
        ('rows', tuple(told['rows']) == net.ROWS),
        ('rows that put back', set(told['waits']) == {row for row in net.ROWS if row.endswith('_waits')}))
    wrong = [what for what, ok in known if not ok]
    if wrong or line(told) != text or '<' in text or '\\' in text:
        sys.exit('page/independent.py: the line of %s tells something else: %s' % (net.PROTOCOL, wrong or 'its text'))
    return text


def page_lines(net, events, first, last):
    """The data of a page: the network, the steps from the opening on, the counts behind the last."""
    yield line({'ghs': 'steps', 'version': 1, 'nodes': net.n, 'links': len(net.keys), 'bound': net.bound,
                'events': len(events), 'from': first, 'to': last})
    yield protocol_line(net)
    for key in net.keys:
        weight, a, b = key
        yield line({'link': key_text(key), 'weight': weight, 'a': a, 'b': b})
    for event in events[:last]:
        yield line(step_json(net, net.play(event)))
    yield line({'ledger': last, **ledger_json(net)})


def parse(words):
    parser = argparse.ArgumentParser(description='The steps of a stored run.')
    parser.add_argument('graph')
    parser.add_argument('trace')
    parser.add_argument('--protocol', choices=list(NETS), default='ghs')
    parser.add_argument('--json', action='store_true')
    parser.add_argument('--page', action='store_true')
    parser.add_argument('--html', action='store_true')
    parser.add_argument('--from', type=int, default=1, dest='first')
    parser.add_argument('--to', type=int, dest='last')
    parser.add_argument('--node', type=int)
    return parser.parse_args(words)


def main():
    asked = parse(sys.argv[1:])
    net = NETS[asked.protocol](*read_gr(open(asked.graph).read()))
    text = open(asked.trace).read()
    if protocol_of(text) != asked.protocol:
        sys.exit('page/independent.py: the trace is of --protocol ' + protocol_of(text))
    events = read_trace(text)
    last = len(events) if asked.last is None else min(asked.last, len(events))
    if asked.page or asked.html:
        data = ''.join(page_lines(net, events, asked.first, last))
        template = os.path.join(HERE, 'template.html')
        sys.stdout.write(open(template).read().replace('@DATA@', data) if asked.html else data)
        return
    for event in events[:last]:
        step = net.play(event)
        if step['number'] >= asked.first and asked.node in (None, step['node']):
            sys.stdout.write(line(step_json(net, step)) if asked.json else text_line(step) + '\n')


if __name__ == '__main__':
    main()
