#!/usr/bin/env python3
"""The rules of the memory in Python: slow and short.

script.py steers by it. Run alone, it answers a script from standard input
over the pool, and so can judge both fast programs.
"""

import re
import sys

LINE = re.compile(rb"([SRWADTFPC])((?:,(?:0|[1-9][0-9]{0,19}))+)\Z")
FIELDS = {"S": 3, "R": 4, "W": 3, "A": 2, "D": 1, "T": 1, "F": 2, "P": 2, "C": 2}


class Refused(Exception):
    def __init__(self, number, layer, node="-", address="-"):
        super().__init__(number)
        self.text = f"no,{number},{layer},{node},{address}"


def call_of(line):
    """The letter and numbers of a line, or None."""
    found = LINE.match(line) if len(line) <= 96 else None
    if not found:
        return None
    letter = found.group(1).decode()
    numbers = [int(field) for field in found.group(2)[1:].split(b",")]
    if len(numbers) != FIELDS[letter] or max(numbers) >= 2**64:
        return None
    if letter == "R" and max(numbers[2:]) >= 2**32:
        return None
    return letter, numbers


class Board:
    def __init__(self, lines):
        self.commands = []                 # ("R", place) or ("W", address, word)
        self.state = ["free"] * 32
        self.reads = [None] * 32           # (address, frame, instruction)
        self.words = [None] * 32
        self.last = 31
        self.lines = [None] * lines        # None, ["waiting", address, places], ["filled", address, word]
        self.hand = 0
        self.order = []

    def writes_held(self):
        return sum(command[0] == "W" for command in self.commands)

    def line_of(self, address):
        for line in self.lines:
            if line and line[1] == address:
                return line
        return None

    def to_claim(self):
        n = len(self.lines)
        around = [(self.hand + i) % n for i in range(n)]
        for i in around:
            if self.lines[i] is None:
                return i
        for i in around:
            if self.lines[i][0] == "filled":
                return i
        return None

    def put(self, i, line):
        self.lines[i] = line
        self.hand = (i + 1) % len(self.lines)

    def make_ready(self, places, word):
        for place in places:
            self.state[place] = "ready"
            self.words[place] = word
            self.order.append(place)
        return len(places)

    def reply(self, address, word):
        line = self.line_of(address)
        if line is None or line[0] == "filled":
            return 0
        count = self.make_ready(line[2], word)
        line[0], line[2] = "filled", word
        return count


class Machine:
    LIMIT = 64

    def __init__(self):
        self.started = False

    def answer(self, line):
        call = call_of(line)
        if call is None:
            return "no,6,script,-,-"
        letter, numbers = call
        try:
            if letter != "S" and not self.started:
                raise Refused(20, "system")
            return ",".join(["ok"] + [str(n) for n in getattr(self, letter)(*numbers)])
        except Refused as refused:
            return refused.text

    def load(self):
        return len(self.transit) + sum(map(len, self.sets.values()))

    def board(self, node):
        if node >= len(self.boards):
            raise Refused(2, "system", node)
        return self.boards[node]

    def S(self, nodes, lines, cells):
        if self.started:
            raise Refused(21, "system")
        if not (1 <= nodes <= 16 and 1 <= lines <= 16 and 1 <= cells <= 64):
            raise Refused(1, "system")
        self.started = True
        self.cells = cells
        self.size = nodes * cells
        self.boards = [Board(lines) for _ in range(nodes)]
        self.stored = {}
        self.sets = {}
        self.transit = []                  # (kind, destination, address, sender, word)
        self.base = 0
        return []

    def R(self, node, address, frame, instruction):
        board = self.board(node)
        if address >= self.size:
            raise Refused(3, "system", node, address)
        for step in range(1, 33):
            place = (board.last + step) % 32
            if board.state[place] == "free":
                break
        else:
            raise Refused(23, "system", node)
        board.state[place] = "held"
        board.reads[place] = (address, frame, instruction)
        board.last = place
        board.commands.append(("R", place))
        return [place]

    def W(self, node, address, word):
        board = self.board(node)
        if address >= self.size:
            raise Refused(3, "system", node, address)
        if board.writes_held() >= 32:
            raise Refused(24, "system", node)
        board.commands.append(("W", address, word))
        return []

    def A(self, node, pick):
        board = self.board(node)
        if pick >= len(board.commands):
            raise Refused(4, "system", node)
        command = board.commands[pick]
        if command[0] == "R":
            ready = self.act_read(node, board, command[1])
        else:
            ready = self.act_write(node, board, pick, command[1], command[2])
        del board.commands[pick]
        return [ready]

    def act_read(self, node, board, place):
        address = board.reads[place][0]
        line = board.line_of(address)
        if line and line[0] == "filled":
            return board.make_ready([place], line[2])
        if line:
            line[2].append(place)
        else:
            i = board.to_claim()
            if i is None:
                raise Refused(25, "lines", node, address)
            if self.load() >= self.LIMIT - 1:
                raise Refused(26, "system", node, address)
            board.put(i, ["waiting", address, [place]])
            self.transit.append(("READ", address // self.cells, address, node, 0))
        board.state[place] = "deferred"
        return 0

    def act_write(self, node, board, pick, address, word):
        line = board.line_of(address)
        if line and line[0] == "filled":
            del board.commands[pick]
            raise Refused(29, "lines", node, address)
        if self.load() >= self.LIMIT:
            raise Refused(26, "system", node, address)
        self.transit.append(("WRITE", address // self.cells, address, node, word))
        if line:
            return board.reply(address, word)
        i = board.to_claim()
        if i is not None:
            board.put(i, ["filled", address, word])
        return 0

    def D(self, pick):
        if not self.transit:
            raise Refused(27, "system")
        kind, to, address, sender, word = self.transit.pop(pick % len(self.transit))
        if kind == "REPLY":
            return [self.boards[to].reply(address, word)]
        if kind == "READ":
            if address in self.stored:
                self.transit.append(("REPLY", sender, address, to, self.stored[address]))
            else:
                self.sets.setdefault(address, set()).add(sender)
            return [0]
        if address in self.stored:
            raise Refused(30, "home", sender, address)
        self.stored[address] = word
        for node in sorted(self.sets.pop(address, ())):
            self.transit.append(("REPLY", node, address, to, word))
        return [0]

    def T(self, node):
        board = self.board(node)
        if not board.order:
            raise Refused(28, "system", node)
        place = board.order.pop(0)
        board.state[place] = "drawn"
        address, frame, instruction = board.reads[place]
        return [place, address, board.words[place], frame, instruction]

    def drawn(self, node, place):
        board = self.board(node)
        if place >= 32 or board.state[place] != "drawn":
            raise Refused(5, "system", node)
        return board

    def F(self, node, place):
        self.drawn(node, place).state[place] = "free"
        return []

    def P(self, node, place):
        board = self.drawn(node, place)
        board.make_ready([place], board.words[place])
        return []

    def C(self, kind, length):
        if length == 0 or not 1 <= kind <= 255:
            raise Refused(1, "array")
        if self.base + length > self.size:
            raise Refused(31, "array")
        base, self.base = self.base, self.base + length
        return [base]


def answers(data):
    """The answer lines to a whole input."""
    machine = Machine()
    *lines, rest = data.split(b"\n")
    for line in lines:
        yield machine.answer(line)
    if rest:
        yield "no,6,script,-,-"


def main():
    for text in answers(sys.stdin.buffer.read()):
        sys.stdout.write(text + "\n")


if __name__ == "__main__":
    main()
