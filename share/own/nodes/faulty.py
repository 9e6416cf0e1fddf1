"""A node's program in a network that fails, which no promise of a protocol is about.

usage: python3 share/own/nodes/faulty.py FAULTS COMMAND

It answers for the program that COMMAND starts, in any language. FAULTS is one of

    lose V K     the K-th message that node V sends is lost
    twice V K    it goes out two times, one right behind the other
    late V K     the K-th message that node V takes, and doesn't defer, goes behind all that wait at its port, and comes again
    lose=P% twice=P% late=P% seed=S
                 each message, by chance; what isn't named doesn't happen. The same seed gives the same faults

A node's variable `network` says how many messages are left, `struck` once it has happened, and by chance how many were sent and taken.
A sleeping node whose message comes late doesn't wake by itself any more: to `ghs` it is awake.
"""
import hashlib
import os
import re
import sys

HERE = os.path.dirname(os.path.realpath(__file__))
FAULTS = ('lose', 'twice', 'late')
ASLEEP = '!'                           # at the end of the variable: the node's own state sleeps
STRUCK = 'struck'


class Refused(Exception):
    """These are no faults."""


class One:
    """One fault: at the K-th message of node V."""

    def __init__(self, fault, node, number):
        self.fault, self.node, self.number = fault, node, number
        self.name = '%s_%d_%d' % (fault, node, number)

    def opened(self, v):
        """What is kept of a node; none where it can't fail."""
        return str(self.number) if v == self.node else None

    def sent(self, v, kept, sends):
        """What goes out in the place of these messages."""
        if self.fault == 'late' or kept == STRUCK: return kept, sends
        at = int(kept) - 1
        if at >= len(sends): return str(int(kept) - len(sends)), sends
        return STRUCK, sends[:at] + sends[at:at + 1] * 2 * (self.fault == 'twice') + sends[at + 1:]

    def taken(self, v, kept):
        """Whether a message that was taken comes late."""
        if self.fault != 'late' or kept == STRUCK: return kept, False
        left = int(kept) - 1
        return (str(left), False) if left else (STRUCK, True)


class Chance:
    """Faults of all nodes by chance: each message by a sum over the seed, its node and its number."""

    def __init__(self, percents, seed):
        self.percents, self.seed = percents, seed
        self.name = '_'.join(['chance', *('%s_%s' % (k, str(p).replace('.', '_')) for k, p in percents.items()), 'seed', str(seed)])

    def opened(self, v): return '0.0'

    def falls(self, what, v, number, faults):
        """Which of these faults the message has, if any."""
        word = hashlib.sha256(('%s %s %d %d' % (self.seed, what, v, number)).encode()).digest()
        place = int.from_bytes(word[:8], 'big') / 2 ** 64 * 100
        for fault in faults:
            if place < self.percents.get(fault, 0): return fault
            place -= self.percents.get(fault, 0)
        return None

    def sent(self, v, kept, sends):
        out, (number, taken) = [], map(int, kept.split('.'))
        for number, message in enumerate(sends, number + 1):
            out += {None: [message], 'lose': [], 'twice': [message] * 2}[self.falls('sent', v, number, ('lose', 'twice'))]
        return '%d.%d' % (number, taken), out

    def taken(self, v, kept):
        number, taken = map(int, kept.split('.'))
        return '%d.%d' % (number, taken + 1), self.falls('taken', v, taken + 1, ('late',)) is not None


def faults_of(text):
    """The faults that a text names."""
    one = re.fullmatch(r'(lose|twice|late) ([1-9]\d*) ([1-9]\d*)', text)
    if one: return One(one[1], int(one[2]), int(one[3]))
    percents, seed = {}, '1'
    for word in text.split():
        chance = re.fullmatch(r'(lose|twice|late)=(\d+(?:\.\d+)?)%', word)
        if chance: percents[chance[1]] = float(chance[2])
        elif re.fullmatch(r'seed=\d+', word): seed = word[5:]
        else: raise Refused('%s: no fault of the network' % text)
    if not percents or percents.get('lose', 0) + percents.get('twice', 0) > 100 or percents.get('late', 0) > 100: raise Refused('%s: no fault of the network' % text)
    return Chance(percents, seed)


class Faulty:
    """What a program answers in a network that has these faults. `ask` is the program's own answer to a question."""

    def __init__(self, faults, ask):
        self.faults, self.ask = faults, ask

    def answer(self, line):
        word, *rest = line.split(' ')
        if word == 'own': return self.greeting(self.ask(line))
        v = int(rest[0])
        if self.faults.opened(v) is None: return self.ask(line)
        if word == 'open': return self.opening(v, self.ask(line))
        return self.reaction(v, word, rest)

    def greeting(self, told):
        return re.sub(r'^(own 1 \w+)', r'\1_' + self.faults.name, told)

    def opening(self, v, told):
        if told.startswith('! '): return told
        if re.search(r'(^|;)network=', told): return '! the node has a variable of the name network'
        return '%s;network=%s' % (told, self.faults.opened(v))

    def reaction(self, v, word, rest):
        state, _, kept = rest[-1].rpartition(';network=')
        if kept.endswith(ASLEEP): state, kept = re.sub(r'(^|;)asleep=no', r'\1asleep=yes', state), kept[:-len(ASLEEP)]
        told = self.ask(' '.join([word, *rest[:-1], state]))
        after, *does = told.split(' ')
        if after == '!' or does[:1] not in (['done'], ['wait']): return told
        if word == 'take' and does[0] == 'done':
            kept, late = self.faults.taken(v, kept)
            if late: return self.late(state, kept)
        kept, sends = self.faults.sent(v, kept, does[1:])
        return ' '.join(['%s;network=%s' % (after, kept), does[0], *sends])

    def late(self, state, kept):
        """The message waits, and nothing else changes, but that a sleeping node is awake."""
        awake = re.sub(r'(^|;)asleep=yes', r'\1asleep=no', state)
        return '%s;network=%s%s wait' % (awake, kept, ASLEEP if awake != state else '')


class Served(Faulty):
    """The same of what a node answers, as a node that fills a book."""

    def __init__(self, faults, node):
        super().__init__(faults, node.answer)
        self.close = node.close


def main():
    if len(sys.argv) != 3: sys.exit(__doc__)
    try: faults = faults_of(sys.argv[1])
    except Refused as refused: sys.exit('faulty: %s' % refused)
    sys.path.append(os.path.dirname(HERE))
    import asking
    program = asking.Node(sys.argv[2], None)
    faulty = Faulty(faults, program.answer)
    try:
        for line in sys.stdin: print(faulty.answer(line.rstrip('\n')), flush=True)
    except asking.Fault as fault: sys.exit('faulty: %s' % fault)
    finally: program.close()


if __name__ == '__main__': main()
