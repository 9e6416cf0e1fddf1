#!/usr/bin/env python3
"""Plays a stored run of Borůvka in step by the rules of docs/class/COMPARE.md, and shares nothing with `ghs`.

usage: bench/in_step.py GRAPH TRACE      prints its steps as docs/FORMATS.md has them, and behind them its time

As a module it hands both out: `told(GRAPH, TRACE)`. An event that isn't lawful, and a message that has no rule, is an error.
"""
import collections
import sys

NONE = "-"
NO_KEY = (float("inf"),)  # behind each key


class Node:
    """What a node knows. Ports stand in key order."""

    def __init__(self, keys):
        self.keys = keys
        self.level, self.name, self.phase = 0, None, "sleeping"
        self.parent, self.best, self.out = None, None, None
        self.halted, self.owed = False, 0
        self.marks = ["basic"] * len(keys)
        self.heard = [(0, None)] * len(keys)

    def seen(self):
        """What a line of steps tells of it, in the order of the line."""
        marks = [(f"mark.{port}", mark) for port, mark in enumerate(self.marks)]
        best = None if self.best is None else f"{self.best[0]}@{text_of(self.best[1])}"
        name = None if self.name is None else text_of(self.name)
        variables = [("level", self.level), ("name", name), ("phase", self.phase), ("parent", self.parent), ("best", best),
                     ("out", self.out), ("halted", "yes" if self.halted else None)]
        return marks + variables

    def is_basic(self, port):
        return self.marks[port] in ("basic", "asked")


def text_of(key):
    return "{}:{}-{}".format(*key)


def said(message):
    kind, *parts = message
    if kind == "changeroot":
        return kind
    return f"{kind}({','.join(NONE if it is None else str(it) if isinstance(it, int) else text_of(it) for it in parts)})"


class Run:
    """The network, played event by event."""

    def __init__(self, nodes, keys):
        ports = {v: [key for key in keys if v in key[1:]] for v in range(1, nodes + 1)}
        self.nodes = {v: Node(ports[v]) for v in ports}
        # of a port the node at its other end, and the port there
        self.ends = {}
        for v, own in ports.items():
            for port, (weight, low, high) in enumerate(own):
                far = low + high - v
                self.ends[v, port] = far, ports[far].index((weight, low, high))
        self.queues = collections.defaultdict(collections.deque)
        self.numbers = dict.fromkeys(ports, 0)
        self.level_width = width(nodes.bit_length() - 1)
        self.key_width = 2 * width(nodes) + width(max((key[0] for key in keys), default=0))
        self.sends, self.sent, self.bits, self.longest = [], 0, 0, 0

    def length(self, message):
        kind = message[0]
        if kind == "report":
            return 3 + 1 + (0 if message[1] is None else self.key_width)
        return 3 + {"connect": self.level_width, "changeroot": 0}.get(kind, self.level_width + self.key_width)

    def send(self, v, port, *message):
        far = self.ends[v, port]
        self.queues[far].append((message, self.numbers[v] + 1))
        self.sends.append(f"{port}>{far[0]}:{said(message)}")
        self.sent += 1
        self.bits += self.length(message)
        self.longest = max(self.longest, self.length(message))

    # ---- the rules, in the words of the page ----

    def wakes(self, v):
        node = self.nodes[v]
        assert node.phase == "sleeping", "it is awake"
        node.phase = "rest"
        if node.keys:
            self.goes_out(v, 0)
        else:
            node.halted = True

    def goes_out(self, v, port):
        node = self.nodes[v]
        node.out = port
        self.send(v, port, "connect", node.level)
        if node.marks[port] == "asked":
            self.core(v, port)

    def core(self, v, port):
        if v < self.ends[v, port][0]:
            node = self.nodes[v]
            self.enters(v, node.level + 1, node.keys[port], None)

    def enters(self, v, level, name, parent):
        node = self.nodes[v]
        node.level, node.name, node.parent, node.phase, node.best, node.owed = level, name, parent, "search", None, 0
        node.marks = ["branch" if mark == "asked" or port == node.out else mark for port, mark in enumerate(node.marks)]
        node.out = None
        for port, mark in enumerate(node.marks):
            if mark == "branch" and port != parent:
                self.send(v, port, "initiate", level, name)
                node.owed += 1
            elif mark == "basic":
                self.send(v, port, "name", level, name)
                if node.heard[port] == (level, name):
                    node.marks[port] = "inside"
        self.close(v)

    def close(self, v):
        node = self.nodes[v]
        basic = [port for port in range(len(node.keys)) if node.is_basic(port)]
        if node.phase != "search" or node.owed or any(node.heard[port][0] < node.level for port in basic):
            return
        if basic and node.keys[basic[0]] < (node.best[1] if node.best else NO_KEY):
            node.best = basic[0], node.keys[basic[0]]
        node.phase = "rest"
        if node.parent is not None:
            self.send(v, node.parent, "report", node.best[1] if node.best else None)
        elif node.best is None:
            node.halted = True
        else:
            self.moves(v)

    def moves(self, v):
        node = self.nodes[v]
        port = node.best[0]
        if node.marks[port] == "branch":
            self.send(v, port, "changeroot")
        else:
            self.goes_out(v, port)

    def takes(self, v, port, message):
        """The row by which the node takes a message."""
        node = self.nodes[v]
        if node.phase == "sleeping":
            self.wakes(v)
        kind, *parts = message
        if kind == "connect" and parts[0] == node.level:
            node.marks[port] = "asked"
            if node.out != port:
                return "Connect_noted"
            self.core(v, port)
            return "Connect_core"
        if kind == "connect":
            assert parts[0] == node.level - 1, "a Connect of another level"
            node.marks[port] = "branch"
            self.send(v, port, "initiate", node.level, node.name)
            node.owed += 1
            return "Connect_late"
        if kind == "initiate":
            assert parts[0] == node.level + 1, "an Initiate of another level"
            self.enters(v, parts[0], parts[1], port)
            return "Initiate_enters"
        if kind == "name":
            node.heard[port] = tuple(parts)
            if node.is_basic(port) and (node.level, node.name) == tuple(parts):
                node.marks[port] = "inside"
            self.close(v)
            return "Name_heard"
        if kind == "report":
            node.owed -= 1
            if parts[0] is not None and parts[0] < (node.best[1] if node.best else NO_KEY):
                node.best = port, parts[0]
            self.close(v)
            return "Report_heard"
        self.moves(v)
        return "Root_moves"

    # ---- events ----

    def step(self, number, event):
        """The line of an event."""
        v, *port = map(int, event[1:])
        before, self.sends = self.nodes[v].seen(), []
        if event[0] == "wake":
            self.wakes(v)
            place, work, row, fate = (NONE, NONE), "wake", "Wakes", NONE
        else:
            message, chain = self.queues[v, port[0]].popleft()
            self.numbers[v] = max(self.numbers[v], chain)
            row = self.takes(v, port[0], message)
            place, work, fate = (port[0], self.ends[v, port[0]][0]), said(message), "done"
        changes = [(it, now) for (it, old), (_, now) in zip(before, self.nodes[v].seen()) if now != old]
        changes = ";".join(f"{it}={NONE if now is None else now}" for it, now in changes)
        fields = number, v, *place, work, row, fate, changes or NONE, ";".join(self.sends) or NONE, self.sent
        return " ".join(map(str, fields)) + "\n"

    def time(self):
        return f"l {max(self.numbers.values())}\nb {self.bits} {self.longest}\n"


def width(number):
    """The bits that a number needs: one at least."""
    return max(1, number.bit_length())


def fields_of(file):
    with open(file, encoding="ascii") as lines:
        return [line.split() for line in lines if line.strip() and not line.startswith("c")]


def told(graph, trace):
    """The lines of a stored run's steps, and its time."""
    nodes, keys = 0, set()
    for kind, *rest in fields_of(graph):
        if kind == "p":
            nodes = int(rest[1])
        else:
            u, v, weight = map(int, rest)
            keys |= {(weight, min(u, v), max(u, v))} if u != v else set()
    run = Run(nodes, sorted(keys))
    head, *events = fields_of(trace)
    assert head == ["trace", "boruvka", str(len(events))], "another head"
    lines = [run.step(number, event) for number, event in enumerate(events, 1)]
    return "".join(lines), run.time()


if __name__ == "__main__":
    if len(sys.argv) != 3:
        sys.exit(__doc__)
    print(*told(*sys.argv[1:]), sep="", end="")
