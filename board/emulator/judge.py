"""Says whether a program is fit for the board, by what judge.lua wrote of a run of it:

    judge.py OUT ROM RATE [STILL]

OUT is the folder that judge.lua wrote into, ROM the bytes of the vector ROM, RATE how many pictures
a second are wanted, and STILL for how many seconds only redraws may come [5]. The program is ./dvg
of this repository, or the one that DVG names.
DVG_LABELS names ld65's list of the program's labels, DVG_EQUATES the names of the vector ROM, and
DVG_TABLES what `dvg lay --table` wrote of the frames: by them places and frames are told.
OUT/premises is what `premises` of this folder said, if it was asked. Each line that begins with BAD
is a reason for status 1.

Of each picture the words are those that stood in the vector RAM at its strobe. `dvg picture` draws
them, and time.awk tells how long the generator of the arcade emulator takes. A frame is what was
written from the flip before its own one on: a run reads no other word of the vector RAM.
"""
import bisect
import collections
import os
import re
import signal
import statistics
import subprocess
import sys

from places import Places, read_labels, read_shapes, read_tables

HERE = os.path.dirname(os.path.realpath(__file__))
TOP = os.path.dirname(os.path.dirname(HERE))
HERTZ, WATCHDOG, LONGEST_WAIT, TOO_MANY = 1512000, 0.087, 0.25, 4 / 3
RAM, HALF, HALF_WORDS, WORDS, LABS, HALT, FLIP = 2048, 1024, 512, 1024, 10, 11, 1
BROKE = {'1': 'a call inside of four calls', '2': 'a return outside of any call',
         '3': 'no memory is there: does a call name a shape, and has the frame its HALT?'}
STILL = '5'


def program():
    """The program that DVG names. ./dvg of this repository looks at all sources each time that it
    runs, so it is asked only once what it would run."""
    named = os.environ.get('DVG') or os.path.join(TOP, 'dvg')
    if os.path.realpath(named) != os.path.join(TOP, 'dvg'):
        return named
    built = subprocess.run([os.path.join(TOP, 'tests', 'built')], stdout=subprocess.PIPE)
    return built.stdout.decode().strip() or named


DVG = program()
places = Places(read_labels(os.environ.get('DVG_LABELS', '')))
shapes = read_shapes(os.environ.get('DVG_EQUATES', ''))
tables = read_tables(os.environ.get('DVG_TABLES', ''))
bad = warnings = 0


def say(is_good, text):
    global bad
    bad += not is_good
    print(text if is_good else 'BAD: ' + text)


def warn(text):
    """What may be as it should, and often isn't."""
    global warnings
    warnings += 1
    print('warning: ' + text)


def by(where, how=' by '):
    """`by` and a place, or nothing where none is known."""
    told = places.tell(where)
    return how + told if told else ''


class Log:
    """judge.log. Its events are `wrote`, `picture`, `room` and `reset`, in their order, each with
    its numbers and its places; `pictures` are triples of a time, how many seconds the program
    waited, and how many resets came before. `flips` are the times at which a new picture was
    published. `amid` has the places of a pause, by what didn't come and when it began, and `looked`
    the switch and the places of a look at it, by when the last new picture came before it."""

    def __init__(self, path):
        self.events, self.pictures, self.early, self.resets, self.room = [], [], [], [], []
        self.faults, self.watched, self.pressed = [], [], None
        self.flips, self.amid, self.looked, self.banks = [], {}, {}, None
        self.gap, self.gap_since, self.gap_places, self.ended = 0.0, 0.0, [], None
        with open(path, errors='replace') as file:
            for number, line in enumerate(file, 1):
                try:
                    self.take(line.split())
                except (ValueError, IndexError):
                    self.faults.append('judge.log line %d is no event' % number)
        if self.ended is None:
            self.faults.append('judge.log has no end: the emulator failed')

    def take(self, words):
        kind, rest = words[0], words[1:]
        if kind == 'watched':
            self.watched.append(' '.join(rest))
        elif kind == 'pressed':
            self.pressed = int(rest[0]), int(rest[1])
        elif kind == 'ended':
            self.ended = float(rest[0])
        elif kind == 'banks':
            self.banks = float(rest[0]), [int(at, 16) for at in rest[1:]]
        elif kind == 'amid':
            self.amid[rest[0], float(rest[1])] = [int(at, 16) for at in rest[2:]]
        elif kind == 'looked':
            self.looked[float(rest[1])] = int(rest[0], 16), [int(at, 16) for at in rest[2:]]
        elif kind == 'watchdog':
            self.gap, self.gap_since = float(rest[0]), float(rest[1])
            self.gap_places = [int(at, 16) for at in rest[2:]]
        else:
            self.take_event(kind, rest)

    def take_event(self, kind, rest):
        count = {'wrote': 3, 'picture': 3, 'room': 1, 'reset': 1}.get(kind)
        if not count or len(rest) < count:
            raise ValueError(kind)
        where = [int(at, 16) for at in rest[count:]]
        if kind == 'wrote':
            at, value = int(rest[0], 16), int(rest[1], 16)
            self.events.append((kind, range(RAM)[at], value, float(rest[2]), where))
            if at == FLIP:
                self.flips.append(float(rest[2]))
            return
        time = float(rest[0])
        self.events.append((kind, time, where))
        if kind == 'picture':
            self.pictures.append((time, float(rest[1]), len(self.resets)))
            if int(rest[2]):
                self.early.append((time, where))
        elif kind == 'reset':
            self.resets.append((time, where))
        else:
            self.room.append((time, where))


def judge_premises(out):
    path = os.path.join(out, 'premises')
    if os.path.exists(path):
        with open(path, errors='replace') as file:
            said = file.read().strip()
        first, *others = said.split('\n')
        say(not first.startswith('broken'), 'the premises of the proof: ' + first)
        for text in others:
            if text.startswith('warning: '):
                warn(text[len('warning: '):])
            else:
                print(text)


def judge_halves(out, log):
    path = os.path.join(out, 'torn.log')
    with open(path, errors='replace') as file:
        lines = file.readlines()
    with open(path, 'rb') as file:
        done = subprocess.run([DVG, 'torn'], stdin=file, stdout=subprocess.PIPE,
                              stderr=subprocess.STDOUT)
    said = done.stdout.decode(errors='replace').strip()
    torn = re.match(r'torn at line (\d+): (wrote \w+ \w+)\n?', said)
    if torn:
        number = sum(line.startswith('wrote') for line in lines[:int(torn.group(1))])
        writes = [event for event in log.events if event[0] == 'wrote'][number - 1:number]
        for _, _, _, time, where in writes:
            said = 'torn: %s%s, at %.3f s\n%s' % (torn.group(2), by(where), time, said[torn.end():])
    say(done.returncode == 0, said.replace('\n', '; '))


def judge_resets(log):
    later = log.resets[1:]
    if later:
        times = ', '.join('%.3f' % time for time, _ in later[:5])
        count = '%d resets' % len(later) if later[1:] else 'a reset'
        say(False, '%s, at %s s%s%s: did the watchdog wait too long?'
            % (count, times, ' and so on' if later[5:] else '',
               by(later[0][1], '; the first one came in ')))
    else:
        say(True, 'no reset')
    is_good = log.gap <= WATCHDOG
    say(is_good,
        'the watchdog: %.1f milliseconds at most without a write, from %.3f s on%s; '
        'the board resets after %.0f%s'
        % (log.gap * 1000, log.gap_since,
           '' if is_good else by(log.gap_places, ', when it was written by '), WATCHDOG * 1000,
           by(log.amid.get(('watchdog', log.gap_since)), ', when the program was in ')))


def amid_picture(log, since):
    """Where the program was in a pause that began at this time and was too long; or nothing."""
    return by(log.amid.get(('picture', since)),
              '; after %.0f milliseconds the program was in ' % (LONGEST_WAIT * 1000))


def tell_pace(log, rate, each_second, pause, since):
    """How many pictures came a second, and the longest pause; new ones are those that were
    published, and a redraw is none."""
    flips = log.flips
    new = (len(flips) - 1) / (flips[-1] - flips[0]) if len(set(flips)) > 1 else 0.0
    if each_second < rate:
        say(False, 'too few pictures: %.1f a second, wanted are %g' % (each_second, rate))
    elif new > rate * TOO_MANY:
        say(False, 'too many new pictures: %.1f a second, wanted are %g: does the program wait '
            'between them, as by `lda #8` and `jsr rest`? Or is RATE too low?' % (new, rate))
    else:
        print('%.1f pictures a second, %.1f of them new; RATE wants %g' % (each_second, new, rate))
    if pause < LONGEST_WAIT:
        print('the longest wait for a picture: %.1f milliseconds, from %.3f s on'
              % (pause * 1000, since))
    else:
        say(False, 'no picture came for %.1f milliseconds, from %.3f s on%s'
            % (pause * 1000, since, amid_picture(log, since)))


def tell_still(log, still):
    """Only redraws came for more than this many seconds, up to the end. A game that rests looks at
    a switch meanwhile, which ends its rest; one picture alone may be meant so. All else hangs."""
    since = log.flips[-1] if log.flips else 0.0
    stood = log.pictures[-1][0] - since
    if not log.flips or stood <= still:
        return
    where = log.amid.get(('new', since))
    told = 'no new picture for %.1f seconds, from %.3f s on: redraws alone' % (stood, since)
    if where:
        told += '; after a second the program was in ' + places.tell_way(where)
    if since in log.looked:
        switch, where = log.looked[since]
        warn('%s; meanwhile the switch %04X was looked at%s: if the game rests, let the file of '
             'buttons press it' % (told, switch, by(where)))
    elif len(log.flips) == 1:
        warn(told + '; no other one was published: does the program hang?')
    else:
        say(False, told + '; no button and no coin switch was looked at: does it hang? If it '
            'rests, let STILL be more')


def judge_rate(log, rate, still):
    times = [time for time, _, _ in log.pictures]
    if log.early:
        time, where = log.early[0]
        say(False, '%d strobes while the generator ran, the first%s, at %.3f s'
            % (len(log.early), by(where), time))
    pauses = [(later - time, time) for time, later in zip(times, times[1:])]
    if not pauses or times[-1] <= times[0]:
        count = 'one picture' if times else 'no picture'
        say(False, '%s in %.1f seconds%s; was dvg_reset called, and then a frame published?'
            % (count, log.ended, amid_picture(log, times[-1] if times else 0.0)))
        return
    pause, since = max(pauses)
    stands = log.ended - times[-1]
    if stands > max(pause, 0.1):
        pause, since = stands, times[-1]
    tell_pace(log, rate, (len(times) - 1) / (times[-1] - times[0]), pause, since)
    tell_still(log, still)
    tell_left(log)


def tell_left(log):
    """The cycles of a picture in which the program waited, where these are least."""
    frames = [(waited, later - time, later)
              for (time, _, resets), (later, waited, resets_then)
              in zip(log.pictures, log.pictures[1:]) if resets == resets_then]
    if not frames:
        return
    waited, whole, at = min(frames)
    left = '%.0f' % (waited * HERTZ) if waited else 'none known'
    doubt = '' if waited else ': it was late, or waits in a loop that writes no watchdog'
    print('cycles left in the busiest frame: %s of %.0f, at %.3f s%s'
          % (left, whole * HERTZ, at, doubt))


def word(memory, k):
    return memory[2 * k] + 256 * memory[2 * k + 1]


def instructions(said):
    """Those of a run, as pairs of an address and a text."""
    return [(int(line[:3], 16), line[4:].split(' at ')[0]) for line in said
            if re.match('[0-9A-F]{3} [A-Z]', line)]


def size_of(text):
    return 2 if text.split()[0] in ('VCTR', 'LABS') else 1


def microseconds(scale):
    """How long a vector takes, by its own and the global scale together, as time.awk has it."""
    return 2 ** (scale + 1) * 8 / 12.096 + 4 if scale < 10 else 4.0


def frame_name(memory, begin):
    """The name of the table whose words stand in a half from word `begin` on, or None. In half 1
    the driver moves calls and jumps within the frame."""
    for name, words in tables.items():
        moved = [one | 0x200 if begin > HALF_WORDS and one >> 8 & 0xDE == 0xC0 else one
                 for one in words]
        there = [word(memory, begin + k) for k in range(len(words))]
        if words and all(one in both for one, *both in zip(there, words, moved)):
            return name
    return None


def what_is_bad(memory, rom):
    """Why a picture isn't good, or None; and what `dvg picture --all` said of it."""
    first = word(memory, 0)
    if first not in (0xE001, 0xE201):
        return 'word zero is %04X, and no jump to a half: E001 or E201' % first, []
    begin = first & 0xFFF
    if word(memory, begin) >> 12 != LABS:
        return ('the frame begins at %03X with %04X, and not with a LABS'
                % (begin, word(memory, begin))), []
    said = drawn(memory, rom)
    ends = [line.split() for line in said if re.match('picture|broke|endless', line)]
    if not ends:
        return 'dvg doesn\'t draw it: ' + ' '.join(said[:1]), []
    if ends[0][0] == 'picture':
        return None, said
    if ends[0][0] == 'endless':
        return 'it never ends', said
    run = instructions(said)
    after = ' after %03X %s' % run[-1] if run else ''
    return 'it breaks at %s%s: %s' % (ends[0][1], after, BROKE.get(ends[0][2], '')), said


def drawn(memory, rom):
    done = subprocess.run([DVG, 'picture', '--all'], input=memory + rom, stdout=subprocess.PIPE,
                          stderr=subprocess.STDOUT)
    return done.stdout.decode(errors='replace').splitlines()


def times_of(texts):
    """Microseconds, vectors and other instructions of each picture."""
    awk = ['awk', '-v', 'each=1', '-f', os.path.join(TOP, 'examples', 'tools', 'time.awk')]
    said = subprocess.run(awk, input='\n'.join(texts).encode(), stdout=subprocess.PIPE).stdout
    found = re.findall(r'all: (\d+) vectors, (\d+) other instructions, (\d+) micro', said.decode())
    return [(int(time), int(vectors), int(others)) for vectors, others, time in found]


class Frames:
    """Who wrote each byte of the vector RAM, and which of them are of the frame that is shown."""

    def __init__(self):
        self.writes = []
        self.last = [-1] * RAM      # the number of the last write of each byte
        self.begun = 0              # the first write of the frame that is being made
        self.shown = 0              # and of the one that is shown
        self.is_new = False

    def write(self, at, time, where):
        self.last[at] = len(self.writes)
        self.writes.append((time, where))
        if at == FLIP:
            self.shown, self.begun, self.is_new = self.begun, len(self.writes), True

    def reset(self):
        self.begun = len(self.writes)

    def has(self, k):
        """Whether word k was written for the frame that is shown."""
        return min(self.last[2 * k], self.last[2 * k + 1]) >= self.shown

    def end(self, begin):
        """The last word of the half that was written for it, or the one before its first."""
        return max((k for k in range(begin, begin - 1 + HALF_WORDS) if self.has(k)),
                   default=begin - 1)

    def put(self, k):
        """By whom word k was put, and when."""
        number = self.last[2 * k]
        if number < 0:
            return ''
        time, where = self.writes[number]
        return ', put%s, at %.3f s' % (by(where), time)

    def caller(self, k):
        """The program's own places, two at most, that had the driver put word k."""
        number = self.last[2 * k]
        where = self.writes[number][1] if number >= 0 else []
        return tuple(at for at in where if at not in places.driver)[:2]


class Pictures:
    """Judges each picture; those of the same words are drawn once."""

    def __init__(self, memories, rom):
        self.memories, self.rom, self.known, self.frames = memories, rom, {}, Frames()
        self.count, self.good, self.bad_ones, self.garbage = 0, [], [], []
        self.drawn = set()                          # the strokes of each, in either half
        self.fullest = 0, 0.0

    def take(self, time):
        memory = self.memories[self.count * RAM:(self.count + 1) * RAM]
        self.count += 1
        if len(memory) < RAM:
            self.bad_ones.append((time, 'its words are missing'))
            return
        half = HALF if memory[1:2] == b'\xE2' else 0
        key = memory[:2] + memory[half + 2:half + HALF]
        if key not in self.known:
            why, said = what_is_bad(memory, self.rom)
            self.known[key] = why, instructions(said)
            self.drawn.add(tuple(line for line in said if re.fullmatch(r'\d+( \d+){4}', line)))
            if not why:
                most = frame_name(memory, half // 2 + 1) or self.costliest(self.known[key][1])
                self.good.append((time, '\n'.join(said), most))
        why, run = self.known[key]
        begin = half // 2 + 1
        if self.frames.is_new:
            self.frames.is_new = False
            self.fullest = max(self.fullest, (self.frames.end(begin) - begin + 1, -time))
        self.look_for_garbage(memory, run, time)
        why = self.what_is_old(memory, begin, run) or why
        if why:
            self.bad_ones.append((time, why))

    def costliest(self, run):
        """Whose words take longest of a run, with all that they call: places of the program, and
        how many microseconds."""
        spent, where, scale = collections.Counter(), (), 0
        for at, text in run:
            if 0 < at < WORDS:
                where = self.frames.caller(at)
            name, *numbers = text.split()
            if name == 'LABS':
                scale = int(numbers[2])
            moves = name in ('VCTR', 'SVEC')
            spent[where] += microseconds((int(numbers[0]) + scale) % 16) if moves else 4
        return longest_of(spent) if spent else ((), 0)

    def look_for_garbage(self, memory, run, time):
        """Words that are taken for a vector, and are the place of a shape: calls without C000."""
        for at, _ in run:
            if 0 < at < WORDS and word(memory, at) in shapes:
                self.garbage.append((time, at, word(memory, at), self.frames.put(at)))
                return

    def what_is_old(self, memory, begin, run):
        """What a run reads that wasn't written for its frame, or None."""
        before = None
        for at, text in run:
            for k in range(at, at + size_of(text)):
                if 0 < k < WORDS and not self.frames.has(k):
                    return self.tell_old(memory, begin, k, before)
            if 0 < at < WORDS:
                before = at, text
        return None

    def tell_old(self, memory, begin, k, before):
        end = self.frames.end(begin)
        if k == end + 1 and end >= begin:
            what = 'HALT' if word(memory, end) >> 12 == HALT else 'end'
            text = 'it goes on past its %s at %03X' % (what, end)
        else:
            text = 'it reads %03X, which was not written for it' % k
        if before:
            at, _ = before
            text += '; before that stands %04X at %03X%s' % (word(memory, at), at,
                                                             self.frames.put(at))
        return text


def judge_pictures(out, log, rom, rate):
    with open(os.path.join(out, 'pictures'), 'rb') as file:
        pictures = Pictures(file.read(), rom)
    for event in log.events:
        if event[0] == 'wrote':
            pictures.frames.write(event[1], event[3], event[4])
        elif event[0] == 'picture':
            pictures.take(event[1])
        elif event[0] == 'reset':
            pictures.frames.reset()
    tell_longest(pictures, log, rate)
    tell_fullest(pictures, log)
    if pictures.garbage:
        time, at, value, put = pictures.garbage[0]
        say(False, 'a call without its opcode: %04X at %03X is where %s stands, and its call is '
            '%04X%s; so in %d pictures' % (value, at, shapes[value], value | 0xC000, put,
                                           len(pictures.garbage)))
    if pictures.bad_ones:
        say(False, '%d bad pictures of %d; the first at %.3f s: %s'
            % (len(pictures.bad_ones), pictures.count, *pictures.bad_ones[0]))
    else:
        print('%d pictures are good, of which %d differ' % (pictures.count, len(pictures.drawn)))


def tell_presses(pressed):
    """How many presses came, and how many there are, if there is a file of buttons."""
    if not pressed:
        return
    told = '%d of %d presses of the file of buttons came' % pressed
    if pressed[0] or not pressed[1]:
        print(told)
    else:
        warn(told + ': its times are seconds')


def tell_banks(log):
    if log.banks:
        time, where = log.banks
        warn('OUT_BANKS was set%s, at %.3f s: pages 2 and 3 of the RAM change places, and the '
             'picture of a table turns upside down' % (by(where), time))


def drawings_of(log):
    """How often a new picture is drawn, as a rule: a rest doesn't count for more than one."""
    times = [time for time, _, _ in log.pictures]
    places = [bisect.bisect(times, flip) for flip in log.flips]
    counts = [after - before for before, after in zip(places, places[1:])]
    return max(statistics.median_low(counts), 1) if counts else 1


def longest_of(spent):
    """The place with the most of what was spent; or the label from which on many places spent far
    more in all, as a macro's lines do."""
    where, most = spent.most_common(1)[0]
    labels = collections.Counter()
    for way, time in spent.items():
        labels[tuple(places.label(at) for at in way[:1]) + way[1:]] += time
    label, whole = labels.most_common(1)[0]
    return (label, whole) if whole >= 2 * most else (where, most)


def tell_longest(pictures, log, rate):
    """How long the generator took. A program that draws each new picture more than once has less
    time for it."""
    good = pictures.good
    times = times_of([text for _, text, _ in good])
    spent = [(found, at, most) for found, (at, _, most) in zip(times, good)]
    if not spent:
        return
    (time, vectors, others), at, most = max(spent, key=lambda one: one[:2])
    there_is, drawings = 1000000 / rate, drawings_of(log)
    is_good, why = time <= there_is, tell_most(most)
    if not is_good:
        why += '; where RATE wants %g a second, there are %.0f for one' % (rate, there_is)
    say(is_good, 'the longest picture: %d microseconds, %d vectors, %d other instructions, '
        'at %.3f s%s' % (time, vectors, others, at, why))
    if there_is / drawings < time <= there_is:
        warn('the longest picture takes longer than %.0f microseconds: where RATE wants %g new '
             'ones a second, and each is drawn %d times, there are no more for one. So new ones '
             'come later%s' % (there_is / drawings, rate, drawings, why))


def tell_most(most):
    """The frame of a table by its name, or what takes longest of a picture that was built."""
    if isinstance(most, str):
        return '; it is the frame ' + most
    where, time = most
    told = '; %.0f microseconds of it by %s'
    return told % (time, places.tell_way(list(where))) if where else ''


def tell_fullest(pictures, log):
    words, time = pictures.fullest
    if not words and not log.room:
        return
    why = ''
    if log.room:
        time_of_it, where = log.room[0]
        why = '; no room was left for what was put%s, at %.3f s' % (by(where[1:]), time_of_it)
    elif words == HALF_WORDS - 1:
        why = '; it is full'
    say(not why, 'the fullest frame: %d of %d words, at %.3f s%s'
        % (words, HALF_WORDS - 1, -time, why))


def judge(out, rom_path, rate, still):
    log = Log(os.path.join(out, 'judge.log'))
    if log.faults:
        say(False, log.faults[0])
        return
    with open(rom_path, 'rb') as file:
        rom = file.read()
    judge_premises(out)
    judge_halves(out, log)
    judge_resets(log)
    judge_rate(log, rate, still)
    judge_pictures(out, log, rom, rate)
    tell_banks(log)
    tell_presses(log.pressed)
    for text in log.watched:
        print('watched: ' + text)
    told = ', with %d warning%s' % (warnings, 's'[warnings == 1:]) if warnings and not bad else ''
    print('judged %.0f seconds: %s%s' % (log.ended, 'bad' if bad else 'good', told))


def main():
    signal.signal(signal.SIGPIPE, signal.SIG_DFL)
    words = sys.argv[1:] + [STILL] * (len(sys.argv) == 4)
    numbers = [float(word) for word in words[2:] if re.fullmatch(r'\d*\.?\d+', word)]
    if len(words) != 4 or len(numbers) != 2 or not all(numbers):
        print('judge: OUT ROM RATE [STILL], where RATE is pictures a second, and STILL seconds',
              file=sys.stderr)
        sys.exit(64)
    try:
        judge(*words[:2], *numbers)
    except OSError as fault:
        say(False, 'nothing was judged: %s' % fault)
    sys.exit(bad != 0)


main()
