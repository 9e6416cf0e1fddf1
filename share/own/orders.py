"""All orders of a small network by a node's program, and the one that shows what breaks: what share/own/without and share/own/faults print.
"""
import re
import subprocess

from asking import Book

# how many steps are printed of an order that goes round; by how many events one that gets stuck is led on, and a queue turned
ROUND, ON, TURNS = 30, 200, 8
# what stands for parts of a line of `ghs explore`
SAID = {"check: ": "", "endless: from here ": "", ": SPENT": " sends more than 5,461 messages"}


class Orders:
    """All orders of a network by a node, whose answers a file keeps: the status of `ghs explore`, what it prints, and the order that it
    shows. `words` are those of the script. Each check is made of all orders, until one tells something."""

    def __init__(self, words, node, path, checks, said=()):
        self.said_for = {**SAID, **dict(said)}
        limit = ["--limit", words.limit] if words.limit else []
        book = Book(path, node, words.ghs)
        try:
            for check in checks:
                self.status, self.text, self.error = book.orders(words.graph, words.wake, *limit, *(["--check", check] if check else []))
                if self.status != 0:
                    break
        finally:
            book.close()
        self.path, self.answers = path, book.entries
        self.head, *self.events = self.text[self.text.find("trace own "):].splitlines() or [""]
        self.command = [words.ghs, "steps", "-", words.graph, "--protocol", "own", "--book", path, "--wake", words.wake]
        ports = {it.split(" ")[1]: it.count(" ") - 1 for it in book.entries if it.startswith("open ")}
        self.all = [f"wake {v}" for v in ports] + [f"take {v} {port}" for v, many in ports.items() for port in range(many)]

    def trace(self, more=()):
        events = [*self.events, *more]
        return "\n".join([f"{self.head.rpartition(' ')[0]} {len(events)}", *events, ""])

    def steps(self, more=()):
        """The steps of the order, and of more events; none, if one of these can't happen."""
        return subprocess.run(self.command, input=self.trace(more), capture_output=True, text=True, check=False).stdout.splitlines()

    def moves(self, event):
        """This event, as often as a queue has to be turned by it until it isn't a deferral; or nothing."""
        for turns in range(1, TURNS + 1):
            steps = self.steps([event] * turns)
            if not steps:
                return []
            if steps[-1].split(" ")[6:9] != ["waits", "-", "-"]:
                return [event] * turns
        return []

    def lead_on(self):
        """Leads the order on until all messages wait, and the first of each queue once more; says if it comes there."""
        for _ in range(ON):
            more = next(filter(None, map(self.moves, self.all)), [])
            if not more:
                self.events += [event for event in self.all if self.steps([event])]
                return True
            self.events += more
        return False

    def lines(self):
        """The steps of the order, and what is said of it."""
        if self.text.startswith("endless: "):
            before, stuck = len(self.events), self.lead_on()
            steps = self.steps()
            steps.insert(before, "# from here no run ends")
            return [*steps, *["# now each message waits that is under way"] * stuck]
        steps = self.steps() if self.events else []
        if ": SPENT\n" in self.text:
            return [*steps[:ROUND], "# .."]
        # (once a node has stopped the others go on, and what it gets is thrown away)
        return steps[:next((at for at, line in enumerate(steps, 1) if line.split(" ")[5] == "stopped"), len(steps))]

    def breaks(self):
        """Whether something breaks."""
        return self.status in (8, 9)

    def said(self):
        """What breaks, in a line."""
        if self.status == 0:
            states, most = (re.search(rf"(?m)^{head} (\d+)", self.text)[1] for head in ("x", r"r \d+"))
            return f"nothing breaks: {states} states, at most {most} messages"
        if not self.breaks():
            return self.error.strip()
        line = self.text.split("\n")[0]
        if line.endswith(": GIVES_UP"):
            answer = re.search(r"(?m)^answer: ! (?:NoRule: (\w+))?(.*)", self.text)
            return f"it breaks: {line.removesuffix(': GIVES_UP')} gives up: {answer[1] or answer[2]}"
        for old, new in self.said_for.items():
            line = line.replace(old, new)
        return f"it breaks: {line}"
