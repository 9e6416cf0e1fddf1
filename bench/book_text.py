"""What is wrong with the text of a book, by docs/FORMATS.md, "Book text", for bench/damage. It shares nothing with the program."""
import functools
import re

LINE_BYTES = LINES = 1 << 20
TEXTS = {
    "TooLong": "more than 1048576 bytes",
    "BadLine": "not a question with an answer",
    "Number": "number missing or out of range",
}
WORD = r"[A-Za-z0-9_]+"
STATE = re.compile(rf"{WORD}=[^ ;]*(;{WORD}=[^ ;]*)*")
MESSAGE = re.compile(rf"{WORD}(\([^ ]+\))?")
KEY = re.compile(r"(\d+):(\d+)-(\d+)")
KIND = re.compile(rf"{WORD}\((.*)\)")
TYPES = {"level", "node", "weight", "count", "key", "key?", "keys", "bit", "text"}


def is_number(text):
    return re.fullmatch(r"0|[1-9][0-9]*", text) is not None and int(text) < 1 << 32


def is_key(text):
    found = KEY.fullmatch(text)
    return found is not None and all(map(is_number, found.groups()))


def is_kind(text):
    found = KIND.fullmatch(text)
    return found is not None and (found[1] == "" or all(it in TYPES or is_number(it) for it in found[1].split(",")))


def is_send(text):
    port, sign, message = text.partition(">")
    return sign == ">" and is_number(port) and MESSAGE.fullmatch(message) is not None


def fault_of_question(text):
    """The name of a question's fault, or None."""
    word, *fields = text.split(" ")
    if word == "own":
        return None if fields == ["1"] else "BadLine"
    count = {"wake": 2, "take": 4}.get(word, len(fields))
    if word not in ("open", "wake", "take") or not fields or len(fields) != count:
        return "BadLine"
    if not all(map(is_number, fields[: 2 if word == "take" else 1])):
        return "Number"
    if word == "open":
        return None if all(map(is_key, fields[1:])) else "BadLine"
    message = word == "wake" or MESSAGE.fullmatch(fields[2])
    return None if message and STATE.fullmatch(fields[-1]) else "BadLine"


def is_answer(question, text):
    """Whether this text is an answer to such a question."""
    word, fields = question.split(" ")[0], text.split(" ")
    if text.startswith("! "):
        return True
    if word == "own":
        return fields[:2] == ["own", "1"] and len(fields) > 3 and re.fullmatch(WORD, fields[2]) is not None and all(map(is_kind, fields[3:]))
    if STATE.fullmatch(fields[0]) is None:
        return False
    if word == "open":
        return len(fields) == 1
    verdicts = ["done", "wait"] if word == "take" else ["done"]
    return len(fields) > 1 and fields[1] in verdicts and all(map(is_send, fields[2:]))


@functools.lru_cache(1 << 12)
def judged(line):
    """A line's question and answer, and its own fault or None."""
    question, sign, answer = line.decode("latin-1").partition(" = ")
    if len(line) > LINE_BYTES:
        return question, answer, "TooLong"
    if not all(32 <= it <= 126 for it in line) or not sign:
        return question, answer, "BadLine"
    return question, answer, fault_of_question(question) or (None if is_answer(question, answer) else "BadLine")


def fault_of(book):
    """What the program says of a text that is no book; None of a book."""
    first = {}
    lines = book.split(b"\n")
    for number, line in enumerate(lines[:-1] if lines[-1] == b"" else lines, 1):
        if number > LINES:
            return "more than 1048576 lines"
        question, answer, fault = judged(line)
        if fault:
            return f"line {number}: {TEXTS[fault]}"
        before, told = first.setdefault(question, (number, answer))
        if told != answer:
            return f"line {number}: another answer than in line {before}"
    return None
