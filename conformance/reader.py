#!/usr/bin/env python3
"""Plays the runs of a folder with a DVG written from README.md alone, and compares what comes of
each with its file: reader.py [FOLDER]. Says the first line that differs of each run that does, and
has status 1 then. Tested, not proved."""
import os
import sys

PLACES = 4096 * 512
MOST = 64  # words that a run fetches at most: a wrong DVG is stopped there
RAM, ROM = range(0x000, 0x400), range(0x800, 0xC00)


class Broke(Exception):
    """What a run breaks by."""


class Started(Exception):
    """A start strobe arrives amid a run, or a run is told no further."""


class Generator:
    """A DVG after power on: what it fetched, and what it drew."""

    def __init__(self, memory):
        self.memory = memory
        self.x = self.y = self.scale = 0
        self.whole_x = self.whole_y = 0

    def start(self, until):
        """A start strobe: a run begins, of which so many words are told, and perhaps a low byte
        more; or all, where there is no `until`."""
        self.at, self.first, self.calls, self.until = 0, 0, [], until
        self.words, self.lines, self.strokes, self.units = 0, [], [], []

    def peek(self):
        """The word that is next."""
        if self.at not in RAM and self.at not in ROM:
            raise Broke('no memory there')
        return self.memory[self.at]

    def look_for_start(self):
        """Raises Started where no more is told of this run."""
        if self.until and self.words == self.until[0]:
            if self.until[1]:
                self.lines.append('low %03X %02X' % (self.at, self.peek() & 0xFF))
            raise Started

    def take(self):
        """Fetches that word, and goes on to the one after it."""
        self.look_for_start()
        word = self.peek()
        if self.words == MOST:
            raise Broke('no end')
        self.words += 1
        self.lines.append('fetched %03X %04X' % (self.at, word))
        self.at = (self.at + 1) % 4096
        return word

    def move(self, scale, dx, dy, intensity):
        x, y, whole_x, whole_y = self.x, self.y, self.whole_x, self.whole_y
        power = (scale + self.scale) % 16
        if power < 10:
            dx, dy = dx * 2 ** power, dy * 2 ** power
            self.x, self.y = (self.x + dx) % PLACES, (self.y + dy) % PLACES
            self.whole_x = (self.whole_x + rounded(dx)) % 4096
            self.whole_y = (self.whole_y + rounded(dy)) % 4096
        exact = '%d %d %d %d %d' % (x, y, self.x, self.y, intensity)
        whole = '%d %d %d %d %d' % (whole_x, whole_y, self.whole_x, self.whole_y, intensity)
        self.lines.append('move %03X %s' % (self.first, exact))
        self.lines.append('count %03X %s' % (self.first, whole))
        if intensity > 0:
            self.strokes.append('stroke ' + exact)
            self.units.append('units ' + whole)

    def step(self):
        """One instruction. Returns whether the run goes on."""
        self.look_for_start()
        self.first = self.at
        opcode = self.peek() >> 12
        if opcode == 0xC and len(self.calls) == 4:
            raise Broke('fifth call')
        if opcode == 0xD and not self.calls:
            raise Broke('return without a call')
        word = self.take()
        if opcode <= 9:
            second = self.take()
            self.move(opcode, signed(second, 10, second & 0x3FF), signed(word, 10, word & 0x3FF),
                      second >> 12)
        elif opcode == 0xA:
            second = self.take()
            self.whole_x, self.whole_y = second & 0xFFF, word & 0xFFF
            self.x, self.y = self.whole_x * 512, self.whole_y * 512
            self.scale = second >> 12
            self.lines.append('place %03X %d %d' % (self.first, self.x, self.y))
        elif opcode == 0xC:
            self.calls.append(self.at)
            self.at = word & 0xFFF
        elif opcode == 0xD:
            self.at = self.calls.pop()
        elif opcode == 0xE:
            self.at = word & 0xFFF
        elif opcode == 0xF:
            self.move(2 + (word >> 11 & 1) + 2 * (word >> 3 & 1),
                      signed(word, 2, (word & 3) * 256), signed(word, 10, (word >> 8 & 3) * 256),
                      word >> 4 & 15)
        return opcode != 0xB

    def run(self, until):
        """All lines of a run."""
        self.start(until)
        try:
            while self.step():
                pass
            end = 'halted'
        except Broke as why:
            end = 'broke %03X %s' % (self.at, why)
        except Started:
            return self.lines
        return self.lines + [end] + self.strokes + self.units


def told(theirs):
    """How much of each run these lines tell: how many words, and whether a low byte came after
    them; None where the run ends by itself."""
    for run in '\n'.join(theirs).split('\nstarted'):
        if '\nhalted' in run or '\nbroke' in run:
            yield None
        else:
            yield run.count('fetched'), '\nlow' in '\n' + run


def play(memory, theirs):
    """All lines of a file."""
    mine, generator = [], Generator(memory)
    for number, until in enumerate(told(theirs)):
        mine += ['started'] * (number > 0) + generator.run(until)
    return mine + ['endless'] * (until is not None)


def signed(word, sign, size):
    """The number of this size whose sign is this bit of a word."""
    return -size if word >> sign & 1 else size


def rounded(move):
    """A move in 1/512 in whole units."""
    units = (abs(move) + 256) // 512
    return units if move > 0 else -units


def read_memory(name):
    with open(name, encoding='ascii') as file:
        pairs = [line[1:].split() for line in file]
    return {int(address, 16): int(word, 16) for address, word in pairs}


def main():
    here = os.path.dirname(os.path.abspath(__file__))
    folder = sys.argv[1] if len(sys.argv) > 1 else os.path.join(here, 'vectors')
    names = sorted(name[:-4] for name in os.listdir(folder) if name.endswith('.hex'))
    wrong = 0
    for name in names:
        path = os.path.join(folder, name)
        with open(path + '.run', encoding='ascii') as file:
            theirs = file.read().splitlines()
        try:
            mine = play(read_memory(path + '.hex'), theirs)
        except KeyError as address:
            mine = ['fetched %03X, which no run fetches' % address.args]
        if mine != theirs:
            wrong += 1
            number = next((i for i, pair in enumerate(zip(mine, theirs)) if pair[0] != pair[1]),
                          min(len(mine), len(theirs)))
            print('%s.run line %d: %s' % (name, number + 1, ' '.join(mine[number:number + 1])))
    print('%d runs, %d differ' % (len(names), wrong))
    sys.exit(wrong > 0 or not names)


main()
