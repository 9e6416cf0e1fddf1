"""The fragments of a run of GHS, counted as the article tells of them; shares nothing with the page.

A fragment has nodes, a level and a name, and only two things change it:

- A node takes a Connect of a level below its own: the fragment behind the link is absorbed. The absorbing one keeps level and name.
- A node takes an Initiate of a level above its fragment's. The two fragments that sent Connect to each other over the link of the
  Initiate's name are one from then on, of that level and that name.

Between the two Connects over a link and the first Initiate that is taken for them, both fragments are as they were: they merge.
"""
import independent


class Fragments:
    def __init__(self, net):
        self.net = net
        # for each node its fragment; a fragment is [level, name, nodes]
        self.of = [None] + [[0, None, [v]] for v in range(1, net.n + 1)]
        # the links over which Connects were sent, each with its senders
        self.asked = {}

    def unite(self, level, name, one, other):
        small, large = sorted((one, other), key=lambda fragment: len(fragment[2]))
        large[0], large[1] = level, name
        for v in small[2]:
            self.of[v] = large
        large[2].extend(small[2])

    def follow(self, step):
        """One more event of the run, as the network plays it."""
        v, message = step['node'], step['message']
        for port, _, _, sent in step['sends']:
            if sent[0] == 'connect':
                self.asked.setdefault(self.net.ports[v][port][0], set()).add(v)
        if message is None or step['fate'] == 'waits':
            return
        mine = self.of[v]
        if message[0] == 'connect' and message[1] < self.net.nodes[v].level:
            self.unite(mine[0], mine[1], mine, self.of[step['far']])
        if message[0] == 'initiate' and message[1] > mine[0]:
            _, level, name, _ = message
            ends = [self.of[end] for end in name[1:]]
            assert any(mine is end for end in ends) and ends[0] is not ends[1], 'an Initiate comes from elsewhere'
            self.unite(level, name, *ends)

    def merges(self):
        """The links over which two fragments merge, in key order."""
        return sorted(key for key, senders in self.asked.items() if len(senders) == 2 and self.of[key[1]] is not self.of[key[2]])

    def all(self):
        """Each fragment once: least node, level, name, nodes."""
        each = {id(fragment): fragment for fragment in self.of[1:]}.values()
        return sorted([min(nodes), level, name and independent.key_text(name), sorted(nodes)] for level, name, nodes in each)

    def cores(self):
        """The links that are the core of a fragment, or of one that is being made."""
        return sorted({fragment[1] for fragment in self.of[1:] if fragment[1]} | set(self.merges()))

    def inside(self):
        """The links that lie within a fragment and are Branch at both ends."""
        marks = [node and node.marks for node in self.net.nodes]
        return sorted(key for v in range(1, self.net.n + 1) for p, (key, far, far_port) in enumerate(self.net.ports[v])
                      if v < far and self.of[v] is self.of[far] and marks[v][p] == marks[far][far_port] == 'branch')
