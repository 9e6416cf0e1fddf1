"""Fills books: asks a node's program what a command of `ghs` finds open, until it finds nothing open.

A node's program is any program that reads questions, one a line, and writes an answer for each, one a line. It is a function of
the question and of the greeting and openings before it: nothing else may change an answer. docs/FORMATS.md, "Book text", has the
lines; nodes/node.py is a library for programs in Python, which finds it wherever it stands.

The scripts here read their words by `parser_of`; `ask` and `run` give the status that `filled` returns.
"""
import argparse
import os
import queue
import re
import shlex
import subprocess
import sys
import threading

HERE = os.path.dirname(os.path.realpath(__file__))
NODES = os.path.join(HERE, "nodes")
sys.dont_write_bytecode = True
sys.path.append(NODES)
import faulty  # noqa: E402

# what a command says of a line of the book
NO_ANSWER = re.compile(r"ghs: book: line (\d+): (?:not a question with an answer|more than)")
LINE_BYTES = 1 << 20        # the bytes that a line of a book may have
LINES = 1 << 20             # the lines that a book may have


class Fault(Exception):
    """What a node's program did wrong: a name, and the question and answer."""

    def __init__(self, name, question, answer=None):
        super().__init__(name)
        self.name, self.question, self.answer = name, question, answer

    def __str__(self):
        told = "" if self.answer is None else f"\nanswer: {self.answer[:200]}"
        return f"{WORDS[self.name]}\nquestion: {self.question}{told}"


WORDS = {
    "SILENT": "SILENT: the program ended without an answer",
    "LATE": "LATE: no answer within the time allowed",
    "GARBLED": "GARBLED: this is no answer to the question",
    "WAVERS": "WAVERS: another answer to the same question",
    "TOO_MANY": "TOO_MANY: more lines than a book may have",
}


class Node:
    """A running program. Each answer has to come within so many seconds."""

    def __init__(self, command, seconds):
        self.seconds = seconds
        pipes = {"stdin": subprocess.PIPE, "stdout": subprocess.PIPE}
        self.program = subprocess.Popen(shlex.split(command), env={**os.environ, "PYTHONPATH": NODES}, **pipes)
        # a program that babbles isn't read far ahead
        self.lines = queue.Queue(16)
        threading.Thread(target=self._read, daemon=True).start()

    def _read(self):
        while True:
            line = self.program.stdout.readline(LINE_BYTES + 1)
            self.lines.put(line)
            if not line:
                return

    def answer(self, question):
        try:
            self.program.stdin.write(question.encode() + b"\n")
            self.program.stdin.flush()
        except OSError:
            raise Fault("SILENT", question) from None
        try:
            line = self.lines.get(timeout=self.seconds)
        except queue.Empty:
            raise Fault("LATE", question) from None
        if not line:
            raise Fault("SILENT", question)
        try:
            text = line.decode("ascii")
        except UnicodeDecodeError:
            raise Fault("GARBLED", question, repr(line)) from None
        if not text.endswith("\n"):
            raise Fault("GARBLED", question, text)
        return text[:-1]

    def close(self):
        self.program.kill()
        self.program.wait()
        try:
            self.program.stdin.close()
        except OSError:
            pass
        self.program.stdout.close()


class Book:
    """A book in a file, and the node that fills it, which it closes."""

    def __init__(self, path, node, ghs):
        self.path, self.node, self.ghs, self.entries = path, node, ghs, {}
        try:
            self._begin()
        except (Fault, OSError):
            node.close()
            raise

    def _begin(self):
        """Reads what the file has."""
        with open(self.path, "a+b") as file:
            file.seek(0)
            # what stands behind the last line feed may be cut off: it is asked again
            file.truncate(file.read().rfind(b"\n") + 1)
        for question, answer in self._lines():
            self.entries.setdefault(question, answer)
        # what a program knows its nodes by comes first, whoever asked it before
        for question in [it for it in self.entries if it.startswith(("own ", "open "))]:
            self._ask(question)

    def _lines(self):
        """The lines of the file, each as question and answer."""
        with open(self.path, encoding="ascii", errors="backslashreplace", newline="\n") as file:
            return [line.removesuffix("\n").partition(" = ")[::2] for line in file]

    def _ask(self, question):
        answer = self.node.answer(question)
        known = self.entries.setdefault(question, answer)
        if known != answer:
            raise Fault("WAVERS", question, answer)
        return answer

    def judge(self, trace, graph, wake):
        """The status of `ghs judge`, and what it prints. Without a trace all runs are judged, by `ghs explore`."""
        return self.fill(*(["explore", graph] if trace is None else ["judge", trace, graph]), "--wake", wake)

    def run(self, command, graph, *options):
        """The status of one run by the book, of many or of all, and what it prints."""
        words = (command, graph, "--protocol", "own", *options)
        if "--turns" not in options and command != "explore":
            # (where nodes have stopped, others may defer messages for long: so questions come first of a run's beginning)
            short = self.fill(*words, "--turns", "10000")
            if short[0] == 0:
                return short
        return self.fill(*words)

    def orders(self, graph, wake, *options):
        """The status of all runs of a small network by the book, and what it prints."""
        # (a node without an answer stops, which makes states of its own: so the questions of some runs come first)
        self.fill("sweep", graph, "--protocol", "own", "--seeds", "1..50", "--wake", wake, "--turns", "10000")
        return self.run("explore", graph, "--wake", wake, *options)

    def fill(self, *words):
        """Asks what this command finds open until it finds nothing; its status, and what it prints."""
        while True:
            ran = subprocess.run([self.ghs, *words, "--book", self.path], capture_output=True, text=True, check=False)
            garbled = NO_ANSWER.match(ran.stderr)
            if garbled:
                raise Fault("GARBLED", *self._lines()[int(garbled[1]) - 1])
            if ran.returncode != 7:
                return ran.returncode, ran.stdout, ran.stderr
            with open(self.path, "a", encoding="ascii", errors="backslashreplace") as file:
                for question in ran.stdout.splitlines():
                    if len(self.entries) >= LINES:
                        raise Fault("TOO_MANY", question)
                    file.write(f"{question} = {self._ask(question)}\n")

    def audit(self):
        """Asks each question once more, the last first: a program that is a function gives its answers again."""
        for question in reversed(list(self.entries)):
            self._ask(question)

    def close(self):
        self.node.close()


def parser_of(head):
    """The words of a script, whose head tells its usage: those that all scripts take which ask programs."""
    parser = argparse.ArgumentParser(usage=re.search(r"(?m)^usage: (.*)$", head)[1])
    parser.add_argument("--seconds", type=float, default=10, help="how long one answer may take (10)")
    parser.add_argument("--ghs", default=os.path.join(HERE, "..", "..", "bin", "ghs"), help="the program ghs")
    return parser


def node_of(parser, words):
    """The node's program, in a network that fails where the words say so."""
    if not getattr(words, "faults", None):
        return Node(words.command, words.seconds)
    try:
        faults = faulty.faults_of(words.faults)
    except faulty.Refused as refused:
        parser.error(str(refused))
    return faulty.Served(faults, Node(words.command, words.seconds))


def filled(parser, fill):
    """Fills a book as `fill` says of the book and the words given, and prints what the command of `ghs` says of it: the status."""
    parser.add_argument("--book", required=True, help="the file of the book, of one graph; it is made where it isn't there")
    parser.add_argument("--wake", default="all", help="which nodes may wake by themselves, as ghs takes it (all)")
    parser.add_argument("--audit", action="store_true", help="asks each question once more at the end")
    words = parser.parse_args()
    book = None
    try:
        book = Book(words.book, node_of(parser, words), words.ghs)
        status, text, error = fill(book, words)
        if words.audit and status == 0:
            book.audit()
    except Fault as fault:
        print(fault)
        return 8
    except OSError as error:
        print(f"{parser.prog}: {error.filename}: {error.strerror}", file=sys.stderr)
        return 5
    finally:
        if book:
            book.close()
    print(text, end="")
    print(error, end="", file=sys.stderr)
    return status
