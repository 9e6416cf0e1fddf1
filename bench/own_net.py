"""Networks of users' nodes, for bench/mistakes and bench/own_equal: rules in Python, as share/own/nodes has them, are asked in this
process, and what they answer is kept as a book. Nothing here knows a protocol, and nothing is taken from the program.
"""
import collections
import os
import random
import sys

sys.dont_write_bytecode = True
HERE = os.path.dirname(os.path.abspath(__file__))
TOP = os.path.dirname(HERE)
OWN = os.path.join(TOP, "share", "own")
sys.path.append(os.path.join(OWN, "nodes"))
import node  # noqa: E402

Answer = collections.namedtuple("Answer", "state waits sends")


def rules_of(name):
    """The text of a node of share/own/nodes."""
    with open(os.path.join(OWN, "nodes", f"{name}.py"), encoding="ascii") as file:
        return file.read()


class Book:
    """What the rules of a text answer: each question once."""

    def __init__(self, rules):
        self.names = {"__name__": "rules"}
        exec(compile(rules, "rules.py", "exec"), self.names)
        (found,) = [it for it in self.names.values() if isinstance(it, type) and it.__module__ == "rules"]
        self.program, self.answers, self.read = node.Program(found), {}, {}
        kinds = self.ask("own 1").split(" ")[3:]
        self.kinds = [it.partition("(")[0] for it in kinds]

    def ask(self, question):
        if question not in self.answers:
            self.answers[question] = self.program.answer(question)
        return self.answers[question]

    def does(self, question):
        """The answer to a wake or a take, or the name of what is wrong with it alone."""
        if question not in self.read:
            text = self.ask(question)
            state, _, done = text.partition(" ")
            word, *sends = done.split(" ")
            sends = [(int(port), message) for port, _, message in (it.partition(">") for it in sends)] if state != "!" else []
            self.read[question] = "GIVES_UP" if state == "!" else Answer(state, word == "wait", sends)
        return self.read[question]

    def counted(self, counts, answer):
        """How many messages of each kind were sent, after an answer."""
        counts = list(counts)
        for _, message in answer.sends:
            counts[self.kinds.index(message.partition("(")[0])] += 1
        return tuple(counts)

    def write(self, path):
        with open(path, "w", encoding="ascii") as file:
            file.writelines(f"{question} = {answer}\n" for question, answer in self.answers.items())
        return path


class Network:
    """Nodes from 1 on, and the keys of their links. A place is a node's port: they are numbered from 0 by node and port."""

    def __init__(self, nodes, keys):
        self.nodes, self.keys = nodes, sorted(set(keys))
        self.ports = {v: [key for key in self.keys if v in key[1:]] for v in range(1, nodes + 1)}
        self.places = [(v, p) for v, keys in self.ports.items() for p in range(len(keys))]
        self.at = {place: number for number, place in enumerate(self.places)}
        ends = [(v, self.ports[v][p]) for v, p in self.places]
        self.far = [self.at[other, self.ports[other].index(key)] for v, key in ends for other in (sum(key[1:]) - v,)]
        self.least = {v: v for v in self.ports}  # the smallest node of each one's component
        for _ in self.ports:
            for _, a, b in self.keys:
                self.least[a] = self.least[b] = min(self.least[a], self.least[b])

    @classmethod
    def drawn(cls, dice, most):
        """A connected network of 2 to so many nodes, some of its links parallel, some weights equal."""
        nodes = dice.randint(2, most)
        ends = [(dice.randint(1, v - 1), v) for v in range(2, nodes + 1)]
        ends += [tuple(dice.sample(range(1, nodes + 1), 2)) for _ in range(dice.randint(0, nodes))]
        heaviest = dice.choice([2, 9, 1000])
        return cls(nodes, [(dice.randint(1, heaviest), *sorted(it)) for it in ends])

    def wakers(self, wake):
        return list(self.ports) if wake == "all" else sorted(set(self.least.values()))

    @classmethod
    def read(cls, path):
        with open(path, encoding="ascii") as file:
            rows = [line.split() for line in file]
        arcs = [tuple(map(int, row[1:])) for row in rows if row and row[0] == "a"]
        (nodes,) = [int(row[2]) for row in rows if row and row[0] == "p"]
        return cls(nodes, [(w, min(u, v), max(u, v)) for u, v, w in arcs if u != v])

    def write(self, path):
        with open(path, "w", encoding="ascii") as file:
            file.write(f"p sp {self.nodes} {len(self.keys)}\n")
            file.writelines(f"a {u} {v} {w}\n" for w, u, v in self.keys)
        return path

    def openings(self, book):
        """The first state of each node, the first at 0."""
        return tuple(book.ask(" ".join([f"open {v}", *("%d:%d-%d" % key for key in keys)])) for v, keys in self.ports.items())

    def question(self, event, states, queues):
        """What a node is asked by an event: a place, or a node below 0 that wakes."""
        if event < 0:
            return f"wake {-event} {states[-event - 1]}"
        v, port = self.places[event]
        return f"take {v} {port} {queues[event][0]} {states[v - 1]}"

    def sent(self, event, queues, answer):
        """The queues after an event."""
        queues = list(queues)
        if event >= 0:
            first, queues[event] = queues[event][0], queues[event][1:]
            if answer.waits:
                queues[event] += (first,)
        first = self.at.get((self.node(event), 0), 0)
        for port, message in answer.sends:
            queues[self.far[first + port]] += (message,)
        return tuple(queues)

    def node(self, event):
        return -event if event < 0 else self.places[event][0]

    def trace(self, events):
        lines = [f"wake {-it}" if it < 0 else "take %d %d" % self.places[it] for it in events]
        return "".join(f"{line}\n" for line in [f"trace {len(lines)}", *lines])

    def events(self, text):
        """The events of a stored run."""
        rows = [line.split() for line in text.splitlines()[1:]]
        return [-int(row[1]) if row[0] == "wake" else self.at[int(row[1]), int(row[2])] for row in rows]


State = collections.namedtuple("State", "own queues counts")


class Run:
    """The network of a user's nodes alone, by a book."""

    def __init__(self, network, book):
        self.network, self.book = network, book

    def opening(self):
        queues = ((),) * len(self.network.places)
        return State(self.network.openings(self.book), queues, (0,) * len(self.book.kinds))

    def events(self, state, wakers):
        sleep = [-v for v in wakers if "asleep=yes" in state.own[v - 1].split(";")]
        return sleep + [place for place, queue in enumerate(state.queues) if queue]

    def after(self, event, state):
        answer = self.book.does(self.network.question(event, state.own, state.queues))
        v = self.network.node(event)
        own = (*state.own[: v - 1], answer.state, *state.own[v:])
        return State(own, self.network.sent(event, state.queues, answer), self.book.counted(state.counts, answer))

    def ended(self, state):
        """Whether a node of each component has halted."""
        halted = {self.network.least[v] for v in self.network.ports if "halted=yes" in state.own[v - 1].split(";")}
        return halted == set(self.network.least.values())


def random_networks(count, most, seed):
    dice = random.Random(seed)
    return [Network.drawn(dice, most) for _ in range(count)]
