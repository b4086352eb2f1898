"""Names places of a program by what `ld65 --dbgfile` wrote of it: the one reader of that file, for
`named` here and emulator/judge.py."""
import re

ROM = 0x6000                                # where the program's ROM may begin
DRIVER = 'dvg_reset', 'dvg_end'


def records_of(path):
    """The records of a file, by their kind: of each a dict. None of a file that isn't there."""
    kinds = {}
    try:
        with open(path, encoding='utf-8', errors='replace') as file:
            for line in file:
                kind, _, rest = line.rstrip('\n').partition('\t')
                fields = re.findall(r'(\w+)=("[^"]*"|[^,]*)', rest)
                kinds.setdefault(kind, []).append({k: v.strip('"') for k, v in fields})
    except OSError:
        pass
    return kinds


def spans_of(kinds):
    """Of each span where it begins, and how many bytes it has."""
    begins = {seg['id']: int(seg['start'], 16) for seg in kinds.get('seg', ())}
    return {span['id']: (begins[span['seg']] + int(span['start']), int(span['size']))
            for span in kinds.get('span', ())}


def lines_of(kinds):
    """Of each address its file and line: where a macro was called, and not in its text."""
    names = {file['id']: file['name'].rsplit('/', 1)[-1] for file in kinds.get('file', ())}
    spans, found = spans_of(kinds), {}
    for line in kinds.get('line', ()):
        if line.get('type', '0') != '0':
            continue
        for begin, size in (spans[one] for one in filter(None, line.get('span', '').split('+'))):
            for at in range(begin, begin + size):
                if at not in found or size < found[at][0]:
                    found[at] = size, names[line['file']], int(line['line'])
    return {at: place for at, (_, *place) in found.items()}


class Places:
    """The labels and the lines of a program, and where the driver is among them."""

    def __init__(self, path):
        kinds = records_of(path)
        self.lines = lines_of(kinds)
        labels = [(int(sym['val'], 16), sym['name']) for sym in kinds.get('sym', ())
                  if sym.get('type') == 'lab' and re.match(r'[A-Za-z_]\w*$', sym['name'])]
        first = {name: at for at, name in sorted(labels, reverse=True)}
        self.driver = range(*[first.get(name, 0) for name in DRIVER])
        self.routines = sorted((at, name) for at, name in labels
                               if at in self.driver and name.startswith('dvg_'))
        self.own = sorted((at, name) for at, name in labels
                          if at not in self.driver and name != DRIVER[1])
        self.code = [pair for pair in self.own if pair[0] >= ROM]
        self.names = dict(reversed(self.own)) | dict(self.routines)

    def label(self, at):
        """The place of the last label up to an address; the address itself where there is none."""
        return max((label for label, _ in self.code + self.routines if label <= at), default=at)

    def name(self, at):
        """As `game.s line 45 (picture + 23)`; the address alone where nothing is known of it."""
        before = [pair for pair in self.code if pair[0] <= at]
        label = ''
        if before and at not in self.driver:
            far = at - before[-1][0]
            label = before[-1][1] + (f' + {far}' if far else '')
        if at not in self.lines:
            return f'{at:04X} ({label})' if label else f'{at:04X}'
        file, line = self.lines[at]
        return f'{file} line {line}' + (f' ({label})' if label else '')

    def routine(self, at):
        return [name for label, name in self.routines if label <= at][-1]

    def tell_way(self, places):
        """Where the program is, by the instruction and the calls that led there, all of them; of
        the driver's own calls the routine alone."""
        told = [self.routine(places[0])] if places and places[0] in self.driver else []
        return ', from '.join(told + [self.name(at) for at in places if at not in self.driver])

    def tell(self, places):
        """Who did it, by the instruction and the calls that led there: the program's own place, or
        the driver's routine, from where it was called."""
        if not places:
            return ''
        own = [self.name(at) for at in places if at not in self.driver]
        if places[0] not in self.driver:
            return own[0]
        return ', from '.join([self.routine(places[0])] + own[:2])
