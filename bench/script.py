#!/usr/bin/env python3
"""Writes a busy script to standard output: the same seed, the same bytes.

usage: script.py [--lines N] [--seed K] [--start NODES,LINES,CELLS]

The calls are steered by model.py, so that most of them are taken: reads run
ahead of the writes, messages overtake each other, and answers are drawn,
finished and put back. In between stand bursts that fill a board or the
network, calls that must be refused, and lines that are none.
"""

import argparse
import random
import sys

from model import Machine

TOP = 2**64 - 1
WEIGHTS = [("read", 21), ("act", 21), ("deliver", 27), ("draw", 16), ("finish", 16), ("put_back", 2), ("rewrite", 1)]
AHEAD = 3       # addresses that are read before they are written
WORKING = 12    # addresses that a board comes back to


class Script:
    def __init__(self, lines, seed, sizes):
        # only random() is the same in every version of Python
        self.random = random.Random(seed).random
        self.total = lines
        self.out = []
        self.machine = Machine()
        self.sizes = sizes
        self.fresh = []
        self.written = []
        self.working = []
        self.actions = [name for name, weight in WEIGHTS for _ in range(weight)]

    def below(self, n):
        return int(self.random() * n)

    def chance(self, share):
        return self.random() < share

    def one(self, items):
        return items[self.below(len(items))]

    def wide(self):
        """A number of any size up to 2^64 - 1."""
        return int(self.random() * 2 ** (1 + self.below(64))) & TOP

    def put(self, line):
        if len(self.out) < self.total:
            self.out.append(line)
            self.machine.answer(line)

    def say(self, letter, *numbers):
        self.put(",".join([letter] + [str(n) for n in numbers]).encode())

    def make(self):
        self.before_start()
        nodes, _, cells = self.sizes
        self.fresh = list(range(nodes * cells))
        for i in range(len(self.fresh) - 1, 0, -1):
            j = self.below(i + 1)
            self.fresh[i], self.fresh[j] = self.fresh[j], self.fresh[i]
        self.working = [[0] * WORKING for _ in range(nodes)]
        bursts = [self.read_burst, self.write_burst, self.flood]
        while len(self.out) < self.total:
            self.write_due()
            if self.chance(0.0004):
                self.one(bursts)()
            elif self.chance(0.012):
                self.rude()
            elif self.chance(0.006):
                self.garbage()
            else:
                self.busy()
        return b"".join(line + b"\n" for line in self.out)

    def before_start(self):
        for letter, count in [("R", 4), ("W", 3), ("A", 2), ("D", 1), ("T", 1), ("F", 2), ("P", 2), ("C", 2)]:
            self.say(letter, *[1] * count)
        self.say("S", 0, 8, 64)
        self.say("S", 17, 8, 64)
        self.say("S", 4, 17, 64)
        self.say("S", 4, 8, 65)
        self.say("S", *self.sizes)

    def node(self):
        return self.below(len(self.machine.boards))

    def address(self, node):
        """Mostly one of the board's own, sometimes one not yet written."""
        working = self.working[node]
        if self.chance(0.2):
            ahead = self.fresh[:AHEAD]
            working[self.below(WORKING)] = self.one(ahead if ahead and self.chance(0.5) else self.written or [0])
        return self.one(working)

    def write_due(self):
        """Spreads the first writes evenly over the script."""
        size = self.machine.size
        while self.fresh and (len(self.out) + 1) * size > len(self.written) * self.total:
            address = self.fresh.pop(0)
            self.written.append(address)
            self.say("W", self.node(), address, self.wide())

    def busy(self):
        getattr(self, self.one(self.actions))()

    def read(self):
        node = self.node()
        if "free" in self.machine.boards[node].state:
            self.say("R", node, self.address(node), self.below(2**32), self.below(4096))

    def rewrite(self):
        node = self.node()
        self.say("W", node, self.address(node), self.wide())

    def act(self):
        node = self.node()
        count = len(self.machine.boards[node].commands)
        if count:
            self.say("A", node, 0 if self.chance(0.5) else self.below(count))

    def deliver(self):
        if self.machine.transit:
            self.say("D", self.wide() if self.chance(0.1) else self.below(100))

    def draw(self):
        node = self.node()
        if self.machine.boards[node].order:
            self.say("T", node)

    def drawn(self):
        node = self.node()
        return node, [place for place, state in enumerate(self.machine.boards[node].state) if state == "drawn"]

    def finish(self):
        node, places = self.drawn()
        if places:
            self.say("F", node, self.one(places))

    def put_back(self):
        node, places = self.drawn()
        if places:
            self.say("P", node, self.one(places))

    def read_burst(self):
        """More reads than a board has places, then their acts in any order."""
        node = self.node()
        for _ in range(34):
            self.say("R", node, self.below(self.machine.size), self.wide() >> 32, self.wide() >> 32)
        for _ in range(30):
            self.say("A", node, self.below(34))

    def write_burst(self):
        """More writes than a board holds, of words that are there already."""
        node = self.node()
        for _ in range(34):
            self.say("W", node, self.one(self.written), self.wide())

    def flood(self):
        """Acts of all boards and no delivery, until the network is full."""
        for node in range(len(self.machine.boards)):
            for _ in range(6):
                self.say("W", node, self.one(self.written), self.wide())
            for _ in range(8):
                self.say("A", node, self.below(6))

    def rude(self):
        """A call that is in form but likely to be refused."""
        node, far = self.node(), len(self.machine.boards) + self.below(9)
        self.say(*self.one([
            ("S", self.below(20), self.below(20), self.below(70)),
            ("R", far, 0, 1, 1),
            ("R", node, self.machine.size + self.wide() // 2, 1, 1),
            ("W", TOP, 0, 0),
            ("W", node, self.machine.size, TOP),
            ("A", node, self.wide()),
            ("A", far, 0),
            ("D", TOP),
            ("T", node),
            ("T", far),
            ("F", node, self.below(40)),
            ("F", far, 0),
            ("P", node, self.below(40)),
            ("P", self.wide(), self.wide()),
            ("C", self.below(300), self.below(12)),
            ("C", 1, self.wide()),
        ]))

    def garbage(self):
        """A line that is none."""
        noise = bytes(self.below(256) for _ in range(self.below(140))).replace(b"\n", b" ")
        self.put(self.one([
            b"",
            b"A",
            b"A,",
            b"A,0",
            b"A,0,00",
            b"A,0,0,",
            b"A,0,0,0",
            b"A 0,0",
            b"a,0,0",
            b"X,0,0",
            b"D,+1",
            b"D,-1",
            b"D, 1",
            b"D,1\r",
            b"D,18446744073709551616",
            b"D,99999999999999999999999",
            b"R,0,0,4294967296,0",
            b"R,0,0,0,4294967296",
            b"W,0,0," + b"1" * 90,
            b"W,0,0," + b"1" * 91,
            b"D,\xd9\xa1",
            noise,
        ]))


def main():
    parser = argparse.ArgumentParser(description="Writes a busy script to standard output.")
    parser.add_argument("--lines", type=int, default=400_000)
    parser.add_argument("--seed", type=int, default=1)
    parser.add_argument("--start", default="16,8,64", help="nodes, lines and cells (16,8,64)")
    given = parser.parse_args()
    sizes = [int(size) for size in given.start.split(",")]
    sys.stdout.buffer.write(Script(given.lines, given.seed, sizes).make())


if __name__ == "__main__":
    main()
