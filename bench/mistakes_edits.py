"""The edits of bench/mistakes: of share/own/nodes/ghs.py, where the first text stands once, and the second takes its place.

Networks: own/ is share/own/networks; links are given the lightest first, as 1-2,1-3.
"""

# the mistake in words, its network, how many events a shortest order has that tells it, what stands there, and what is put there
MISTAKES = [
    # waking
    (
        "a lone node never halts", "own/lone", 1,
        "if not self.ports: return self.halt()",
        "if not self.ports: return",
    ),
    (
        "a leaf halts as it wakes", "examples/pair", 1,
        "self.mark(0, 'branch')\n"
        "        self.send(0, 'connect', 0)",
        "self.mark(0, 'branch')\n"
        "        self.send(0, 'connect', 0)\n"
        "        if len(self.ports) == 1: self.halt()",
    ),
    (
        "a node wakes over its heaviest link", "own/triangle", 1,
        "self.mark(0, 'branch')\n"
        "        self.send(0, 'connect', 0)",
        "self.mark(self.ports[-1], 'branch')\n"
        "        self.send(self.ports[-1], 'connect', 0)",
    ),
    (
        "who is woken by a Test sends no Connect", "own/path", 5,
        "def on_test(self, j, level, name):\n"
        "        if self.asleep: self.wake()",
        "def on_test(self, j, level, name):\n"
        "        if self.asleep: self.phase = 'found'",
    ),
    (
        "who is woken by a Connect forgets it", "own/ring6", 2,
        "def on_connect(self, j, level):\n"
        "        if self.asleep: self.wake()",
        "def on_connect(self, j, level):\n"
        "        if self.asleep: return self.wake()",
    ),
    # Connect
    (
        "an equal level is absorbed", "examples/pair", 2,
        "if level < self.level:",
        "if level <= self.level:",
    ),
    (
        "a lower level waits", "own/ring6", 36,
        "if level < self.level:",
        "if level < self.level: return self.wait()\n"
        "        if level < self.level:",
    ),
    (
        "who is absorbed isn't marked", "own/grid6", 16,
        "self.mark(j, 'branch')\n"
        "            self.send(j, 'initiate', self.level, self.name, self.phase)",
        "self.send(j, 'initiate', self.level, self.name, self.phase)",
    ),
    (
        "who is absorbed at rest is told to search", "own/tied", 13,
        "self.send(j, 'initiate', self.level, self.name, self.phase)",
        "self.send(j, 'initiate', self.level, self.name, 'find')",
    ),
    (
        "who is absorbed is told a level more", "own/path", 6,
        "self.send(j, 'initiate', self.level, self.name, self.phase)",
        "self.send(j, 'initiate', self.level + 1, self.name, self.phase)",
    ),
    (
        "who is absorbed at rest is awaited too", "examples/five_tree", 27,
        "if self.phase == 'find': self.find_count += 1\n"
        "        elif self.marks",
        "self.find_count += 1\n"
        "        elif self.marks",
    ),
    (
        "who is absorbed is told the link's key as the name", "own/star5", 6,
        "self.send(j, 'initiate', self.level, self.name, self.phase)",
        "self.send(j, 'initiate', self.level, self.keys[j], self.phase)",
    ),
    (
        "a merge keeps the level", "own/triangle", 2,
        "self.level + 1, self.keys[j]",
        "self.level, self.keys[j]",
    ),
    (
        "a merge keeps the name", "own/five_path", 2,
        "self.level + 1, self.keys[j]",
        "self.level + 1, self.name",
    ),
    (
        "no level is above 1", "own/ring6", 28,
        "self.level + 1, self.keys[j]",
        "min(self.level + 1, 1), self.keys[j]",
    ),
    (
        "a merge begins at rest", "examples/pair", 2,
        "self.keys[j], 'find')",
        "self.keys[j], 'found')",
    ),
    (
        "a Connect that should wait is dropped", "own/ring6", 22,
        "elif self.marks[j] == 'basic': self.wait()",
        "elif self.marks[j] == 'basic': pass",
    ),
    # Initiate
    (
        "in_branch is never turned", "own/ring6", 45,
        "self.phase, self.in_branch, self.best = level, name, phase, j, None",
        "self.phase, self.best = level, name, phase, None\n"
        "        if self.in_branch is None: self.in_branch = j",
    ),
    (
        "the level isn't taken over", "own/ring6", 32,
        "self.level, self.name, self.phase, self.in_branch, self.best = level, name, phase, j, None",
        "self.level, self.name, self.phase, self.in_branch, self.best = max(self.level, 1), name, phase, j, None",
    ),
    (
        "the name isn't taken over", "1-2,3-4,1-3,1-4", 21,
        "self.level, self.name, self.phase, self.in_branch, self.best = level, name, phase, j, None",
        "self.level, self.name, self.phase, self.in_branch, self.best = level, self.name or name, phase, j, None",
    ),
    (
        "an Initiate goes back where it came from", "examples/pair", 4,
        "if i != j and self.marks[i] == 'branch':",
        "if self.marks[i] == 'branch':",
    ),
    (
        "an Initiate goes over Basic ports too", "own/star5", 4,
        "if i != j and self.marks[i] == 'branch':",
        "if i != j and self.marks[i] != 'rejected':",
    ),
    (
        "a search isn't passed on", "own/five_path", 27,
        "                self.send(i, 'initiate', level, name, phase)\n"
        "                if phase == 'find': self.find_count += 1",
        "                if phase != 'find': self.send(i, 'initiate', level, name, phase)",
    ),
    (
        "children aren't awaited", "own/ring6", 30,
        "if phase == 'find': self.find_count += 1",
        "pass",
    ),
    (
        "a node that rests searches too", "examples/five_tree", 14,
        "if phase == 'find': self.search()",
        "self.search()",
    ),
    # Test
    (
        "the heaviest Basic port is asked first", "own/grid6", 8,
        "next((i for i in self.ports",
        "next((i for i in reversed(self.ports)",
    ),
    (
        "a Branch is asked too", "own/ring6", 30,
        "if self.marks[i] == 'basic'), None)",
        "if self.marks[i] != 'rejected' and i != self.in_branch), None)",
    ),
    (
        "a Test of a lower level waits too", "1-2,3-4,1-3,5-6,1-5", 24,
        "if level > self.level: self.wait()",
        "if level != self.level: self.wait()",
    ),
    (
        "a Test that should wait is dropped", "examples/second_arc", 5,
        "if level > self.level: self.wait()",
        "if level > self.level: pass",
    ),
    (
        "a Test that should wait is rejected", "own/triangle", 5,
        "if level > self.level: self.wait()",
        "if level > self.level: self.send(j, 'reject')",
    ),
    (
        "a Test says the level of the next search", "own/triangle", 4,
        "self.send(self.probe, 'test', self.level, self.name)",
        "self.send(self.probe, 'test', self.level + 1, self.name)",
    ),
    (
        "Accept and Reject are exchanged", "own/grid6", 9,
        "elif name != self.name: self.send(j, 'accept')",
        "elif name == self.name: self.send(j, 'accept')",
    ),
    (
        "names are compared by their weights", "own/tied", 9,
        "elif name != self.name:",
        "elif self.name is None or name[0] != self.name[0]:",
    ),
    (
        "who is asked from inside marks a Branch too", "own/five_path", 27,
        "if self.marks[j] == 'basic': self.mark(j, 'rejected')\n"
        "            if self.probe",
        "self.mark(j, 'rejected')\n"
        "            if self.probe",
    ),
    (
        "crossing Tests are ignored", "own/ring6", 44,
        "else: self.search()\n"
        "\n"
        "    def on_accept",
        "else: pass\n"
        "\n"
        "    def on_accept",
    ),
    (
        "crossing Tests are rejected and go on", "own/grid6", 20,
        "if self.probe != j: self.send(j, 'reject')\n"
        "            else: self.search()",
        "self.send(j, 'reject')\n"
        "            if self.probe == j: self.search()",
    ),
    # Accept and Reject
    (
        "an accepted link is the best whatever was heard", "1-2,1-3,4-5,3-4,1-4", 20,
        "self.better(j, self.keys[j])",
        "self.best = (j, self.keys[j])",
    ),
    (
        "an Accept leaves the probe", "own/ring6", 11,
        "self.probe = None\n"
        "        self.better",
        "self.better",
    ),
    (
        "after an Accept the next port is asked too", "own/five_path", 19,
        "self.better(j, self.keys[j])\n"
        "        self.report()",
        "self.better(j, self.keys[j])\n"
        "        self.marks[j] = 'seen'\n"
        "        self.search()",
    ),
    (
        "a Reject marks a Branch too", "own/five_path", 20,
        "if self.marks[j] == 'basic': self.mark(j, 'rejected')\n"
        "        self.search()",
        "self.mark(j, 'rejected')\n"
        "        self.search()",
    ),
    (
        "a Reject marks nothing", "own/grid6", 14,
        "if self.marks[j] == 'basic': self.mark(j, 'rejected')\n"
        "        self.search()",
        "self.search()",
    ),
    (
        "a Reject ends the search", "own/star5", 11,
        "if self.marks[j] == 'basic': self.mark(j, 'rejected')\n"
        "        self.search()",
        "if self.marks[j] == 'basic': self.mark(j, 'rejected')\n"
        "        self.probe = None\n"
        "        self.report()",
    ),
    # the best link
    (
        "the heavier link is the better", "own/tied", 21,
        "key < self.best[1]",
        "key > self.best[1]",
    ),
    (
        "keys are compared by their ends alone", "1-2,1-3,4-5,3-4,1-4", 20,
        "key < self.best[1]",
        "key[1:] < self.best[1][1:]",
    ),
    (
        "a heard link is kept only if there is none", "1-2,3-4,1-3,1-5,3-5", 17,
        "(self.best is None or key < self.best[1])",
        "self.best is None",
    ),
    # Report
    (
        "children aren't waited for", "own/star5", 15,
        "if self.find_count == 0 and self.probe is None:",
        "if self.probe is None:",
    ),
    (
        "the own Test isn't waited for", "own/grid6", 21,
        "if self.find_count == 0 and self.probe is None:",
        "if self.find_count == 0:",
    ),
    (
        "who has reported is still in search", "own/ring6", 20,
        "self.phase = 'found'\n"
        "            self.send(self.in_branch",
        "self.send(self.in_branch",
    ),
    (
        "a node reports the key of its port", "own/five_path", 18,
        "self.best and self.best[1])",
        "self.best and self.keys[self.best[0]])",
    ),
    (
        "a node reports to all children too", "own/ring6", 45,
        "self.send(self.in_branch, 'report', self.best and self.best[1])",
        "for i in self.ports:\n"
        "                if self.marks[i] == 'branch': self.send(i, 'report', self.best and self.best[1])",
    ),
    (
        "a Report isn't counted down", "own/ring6", 45,
        "self.find_count -= 1\n"
        "            self.better",
        "self.better",
    ),
    (
        "a Report counts all children down", "own/grid6", 25,
        "self.find_count -= 1\n"
        "            self.better",
        "self.find_count = 0\n"
        "            self.better",
    ),
    (
        "what is reported is forgotten", "own/five_path", 18,
        "self.find_count -= 1\n"
        "            self.better(j, key)",
        "self.find_count -= 1",
    ),
    (
        "a Report that should wait is dropped", "examples/second_arc", 7,
        "elif self.phase == 'find': self.wait()\n"
        "        elif self.best",
        "elif self.phase == 'find': pass\n"
        "        elif self.best",
    ),
    # the core, ChangeRoot
    (
        "both sides of the core move", "1-2,3-4,1-3,1-4", 15,
        "(key is None or key > self.best[1])",
        "True",
    ),
    (
        "the side of the heavier link moves", "own/ring6", 20,
        "(key is None or key > self.best[1])",
        "(key is None or key < self.best[1])",
    ),
    (
        "no side moves if the other has none", "examples/two_pairs", 13,
        "(key is None or key > self.best[1])",
        "(key is not None and key > self.best[1])",
    ),
    (
        "the core never halts", "examples/pair", 6,
        "elif key is None and self.best is None: self.halt()",
        "",
    ),
    (
        "a core halts if it has found nothing", "own/five_path", 17,
        "elif key is None and self.best is None: self.halt()",
        "elif self.best is None: self.halt()",
    ),
    (
        "a core halts if the other side has found nothing", "examples/two_pairs", 13,
        "elif self.best is not None and (key is None or key > self.best[1])",
        "elif key is None: self.halt()\n"
        "        elif self.best is not None and (key is None or key > self.best[1])",
    ),
    (
        "ChangeRoot isn't passed on", "own/five_path", 20,
        "if self.marks[b] == 'branch': self.send(b, 'changeroot')",
        "if self.marks[b] == 'branch': pass",
    ),
    (
        "ChangeRoot goes back to the core", "own/five_path", 20,
        "self.send(b, 'changeroot')",
        "self.send(self.in_branch, 'changeroot')",
    ),
    (
        "Connect always says level 0", "own/ring6", 20,
        "self.send(b, 'connect', self.level)",
        "self.send(b, 'connect', 0)",
    ),
    (
        "Connect is sent twice", "examples/two_pairs", 13,
        "self.send(b, 'connect', self.level)",
        "self.send(b, 'connect', self.level)\n"
        "            self.send(b, 'connect', self.level)",
    ),
    (
        "a new root starts at level 0 again", "own/tied", 21,
        "self.send(b, 'connect', self.level)\n",
        "self.send(b, 'connect', self.level)\n"
        "            self.level = 0\n",
    ),
    # answers that a node may not give
    (
        "a node that has found nothing gives up", "own/triangle", 10,
        "self.best and self.best[1])",
        "self.best[1])",
    ),
    (
        "a Reject goes out at a port that isn't there", "own/triangle", 9,
        "if self.probe != j: self.send(j, 'reject')",
        "if self.probe != j: self.send(len(self.ports), 'reject')",
    ),
    (
        "Accept has another name", "own/tied", 9,
        "self.send(j, 'accept')",
        "self.send(j, 'agree')",
    ),
    (
        "who has reported forgets the best", "own/ring6", 20,
        "self.send(self.in_branch, 'report', self.best and self.best[1])",
        "self.send(self.in_branch, 'report', self.best and self.best[1])\n"
        "            self.best = None",
    ),
]

# what changes nothing that is seen: in words, the network, what stands there, and what is put there
HARMLESS = [
    (
        "an Initiate sets find_count to 0", "own/ring6",
        "phase, j, None\n"
        "        for i",
        "phase, j, None\n"
        "        self.find_count = 0\n"
        "        for i",
    ),
    (
        "Initiates go out from the last port on", "own/five_path",
        "for i in self.ports:\n"
        "            if i != j and",
        "for i in reversed(self.ports):\n"
        "            if i != j and",
    ),
    (
        "a node keeps how many ports it has", "own/tied",
        "self.in_branch = self.best = self.probe = None\n",
        "self.in_branch = self.best = self.probe = None\n"
        "        self.degree = len(self.ports)\n",
    ),
    (
        "a node counts the messages that wake it", "own/star5",
        "def on_connect(self, j, level):\n"
        "        if self.asleep: self.wake()",
        "def on_connect(self, j, level):\n"
        "        if self.asleep: self.wake(); self.woken = 1",
    ),
    (
        "Connect goes over the lightest Basic port", "own/grid6",
        "b = self.best[0]\n",
        "b = self.best[0]\n"
        "        if self.marks[b] == 'basic': b = self.marks.index('basic')\n",
    ),
    (
        "a Report counts only where one is awaited", "examples/five_tree",
        "if j != self.in_branch:",
        "if j != self.in_branch and self.find_count:",
    ),
]
