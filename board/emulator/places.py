"""Names places of a program by the list of its labels, for judge.py of this folder."""
import re

DRIVER = ('dvg_reset', 'dvg_end')


def read_labels(path):
    """Pairs of an address and a name, of ld65's list, in its order; none where it isn't there."""
    try:
        with open(path) as file:
            found = [re.match(r'al ([0-9A-F]{6}) \.([A-Za-z_]\w*)$', line) for line in file]
    except OSError:
        return []
    return [(int(match.group(1), 16), match.group(2)) for match in found
            if match and not match.group(2).startswith('LOCAL')]


def read_shapes(path):
    """The names of the ROM's shapes by the words where they stand, of build/shapes.equates."""
    try:
        with open(path) as file:
            found = [re.match(r'(\w+) = \$([0-9A-F]+)$', line) for line in file]
    except OSError:
        return {}
    return {int(match.group(2), 16): match.group(1) for match in found if match}


def read_tables(path):
    """The words of each frame by the name of its table, as `dvg lay --table` writes them after how
    many there are."""
    try:
        with open(path) as file:
            parts = re.split(r'^(\w+):$', file.read(), flags=re.M)[1:]
    except OSError:
        return {}
    return {name: words_of(text)[1:] for name, text in zip(parts[::2], parts[1::2])}


def words_of(text):
    """The numbers of the lines `.word` of a text, but those of remarks."""
    lines = (line.split(';')[0] for line in text.splitlines())
    return [int(one.replace('$', '0x'), 0) for line in lines if '.word' in line
            for one in re.findall(r'\$[0-9A-Fa-f]+|\d+', line)]


class Places:
    """Labels of the program's code, from 6000 on, and where the driver stands among them."""

    def __init__(self, labels):
        self.code = sorted((at, name) for at, name in labels if at >= 0x6000)
        first = {}
        for at, name in labels:
            first.setdefault(name, at)
        self.driver = range(*[first.get(name, 0) for name in DRIVER])
        self.routines = [(at, name) for at, name in self.code
                         if at in self.driver and name.startswith('dvg_')]

    def name(self, at):
        """As `6AF8, picture + 23`; the address alone where no label stands before it."""
        before = [pair for pair in self.code if pair[0] <= at and pair[0] not in self.driver]
        if not before:
            return '%04X' % at
        label, name = before[-1]
        return '%04X, %s%s' % (at, name, ' + %d' % (at - label) if at > label else '')

    def label(self, at):
        """The place of the label before it; itself where none stands there."""
        return max((label for label, _ in self.code if label <= at), default=at)

    def routine(self, at):
        return [name for label, name in self.routines if label <= at][-1]

    def tell_way(self, places):
        """Where the program is, by the instruction and the calls that led there, all of them; of
        the driver's own calls the routine alone."""
        told = [self.routine(places[0])] if places and places[0] in self.driver else []
        return ', from '.join(told + [self.name(at) for at in places if at not in self.driver])

    def tell(self, places):
        """Who did it, by the instruction and the calls that led there: the program's own place, or
        the driver's routine, from where it was called."""
        if not places:
            return ''
        own = [self.name(at) for at in places if at not in self.driver]
        if places[0] not in self.driver:
            return own[0]
        return ', from '.join([self.routine(places[0])] + own[:2])
