"""Makes of a bus log a trace for `dvg play --all` whose events are the log's actions, and what of
its answer must be the log again:

    log2trace.py BUS_LOG ROM_LINES OUT_TRACE OUT_EXPECTED
    log2trace.py BUS_LOG ROM_LINES --shots OUT_FOLDER

The log has lines `peek`, `wrote HHH HH`, `read halted`, `read running` and `sent`; what stands
after a # is passed over. The draft of each frame is read back out of the words that were written.
Before the flag is read as halted a run is fetched to its end; as a trace has 65,536 events at most,
later runs end by a reset of the generator. A flag that is read where the driver is idle is a
redraw. A peek later than the first one is a reset of both ends; a frame that it cut off gets some
end.

With --shots the frames that were published last before each snapshot are written as drafts, for
`dvg check` and its like: OUT_FOLDER/SHOT_1.draft is the newest one before snapshot SHOT, 2 the one
before it.
"""
import os
import signal
import sys

TWO_WORDS, LABS, HALT, CALL, RETURN, JUMP, SVEC = range(10), 10, 11, 12, 13, 14, 15
MOST_BYTES, MOST_EVENTS, FETCHED_EVENTS = 1000000, 65000, 20000


def signed(value, bits):
    size = value & ((1 << bits) - 1)
    return -size if value >> bits & 1 else size


def has_two_words(word):
    return word >> 12 <= LABS


def read_rom(lines):
    words = {}
    for line in lines:
        part = line.split()
        if part[:1] == ['rom']:
            for i, word in enumerate(part[2:]):
                words[int(part[1], 16) + i] = int(word, 16)
    return words


def operation(words, k):
    """The operation at k: its text, or its name and the word that it names."""
    word, opcode = words[k], words[k] >> 12
    if has_two_words(word):
        other = words[k + 1]
        if opcode == LABS:
            return 'labs %d %d %d' % (other & 0xFFF, word & 0xFFF, other >> 12)
        return 'vctr %d %d %d %d' % (opcode, signed(other, 10), signed(word, 10), other >> 12)
    if opcode == SVEC:
        scale = 2 + (word >> 11 & 1) + 2 * (word >> 3 & 1)
        dx, dy = signed(word & 7, 2), signed(word >> 8 & 7, 2)
        return 'svec %d %d %d %d' % (scale, dx, dy, word >> 4 & 15)
    if opcode in (HALT, RETURN):
        return 'halt' if opcode == HALT else 'return'
    return ('call' if opcode == CALL else 'jump', word & 0xFFF)


def is_cut_short(words):
    """Whether the last word wants a second one."""
    k = 0
    while k < len(words):
        k += 2 if has_two_words(words[k]) else 1
    return k > len(words)


def draft(words, first):
    """The operations of the words that stand from word `first` on. A call or a jump into the middle
    of one becomes one of operation 999, which there isn't, so that `dvg` refuses the frame."""
    operations, numbers, k = [], {}, 0
    words = words + [0] if is_cut_short(words) else words
    while k < len(words):
        numbers[first + k] = len(operations)
        operations.append(operation(words, k))
        k += 2 if has_two_words(words[k]) else 1
    for i, found in enumerate(operations):
        if isinstance(found, tuple):
            name, target = found
            is_own = target < 0x400
            number = numbers.get(target, 999)
            operations[i] = '%s %d' % (name, number) if is_own else '%srom %03X' % found
    return operations


def completed(words, first):
    """The words of a frame that was cut off, with some end: each target stands within it."""
    k = farthest = 0
    while k < len(words):
        if words[k] >> 12 in (CALL, JUMP) and words[k] & 0xFFF < 0x400:
            farthest = max(farthest, (words[k] & 0xFFF) - first)
        k += 2 if has_two_words(words[k]) else 1
    missing = max(k, farthest) - len(words)
    return words + [0xF000] * missing + [HALT << 12]


def words_of(writes):
    data = [byte for _, byte in writes]
    if len(data) % 2:
        data.append(0)
    return [data[i] | data[i + 1] << 8 for i in range(0, len(data), 2)]


class Replay:
    """What the log makes of a trace, and of what must come of it."""

    def __init__(self, rom):
        self.rom = rom
        self.ram = [0] * 2048
        self.trace, self.expected = [], []
        self.events = self.frames = self.pictures = self.resets = self.cut = self.bytes = 0
        self.is_open = self.is_idle = self.is_booting = False

    def add(self, line, events=1):
        self.trace.append(line)
        self.events += events
        self.bytes += len(line) + 1

    def act(self, action):
        self.add('tick')
        self.expected.append(action)

    def fetches(self):
        """How many bytes a run over the memory as it is fetches."""
        place, stack, count = 0, [], 0
        while count < 100000:
            if place < 0x400:
                word = self.ram[2 * place] | self.ram[2 * place + 1] << 8
            else:
                word = self.rom.get(place, 0xD000)
            size = 2 if has_two_words(word) else 1
            count += size
            place += size
            opcode = word >> 12
            if opcode == HALT:
                break
            if opcode == CALL:
                stack.append(place)
            if opcode in (CALL, JUMP):
                place = word & 0xFFF
            if opcode == RETURN and not stack:
                break
            if opcode == RETURN:
                place = stack.pop()
        return 2 * count

    def end_run(self):
        count = self.fetches() if self.events < FETCHED_EVENTS else 0
        if 0 < count < 10000:
            self.add('fetch %d' % count, count)
            self.pictures += 1
        else:
            self.add('resetgen')
        self.is_open = False

    def offer(self, writes, is_cut):
        """A frame, and the ticks of its writes."""
        first = writes[0][0]
        words = words_of(writes)
        if is_cut:
            words = completed(words, first // 2)
            self.cut += 1
        self.add('offer\n%s\nend' % '\n'.join(draft(words, first // 2)))
        self.expected.append('offered')
        self.frames += 1
        self.is_idle = False
        for at, byte in writes:
            self.ram[at] = byte
            self.act('wrote %03X %02X' % (at, byte))

    def other(self, action):
        """An action that is no write of a frame."""
        if action.startswith('wrote'):
            self.ram[int(action[6:9], 16)] = int(action[10:12], 16)
        if action == 'peek' and self.events:
            self.add('resetgen\nresetcpu', 2)
            self.resets += 1
            self.is_open = False
        if action.startswith('read') and self.is_idle:
            self.add('redraw')
            self.expected.append('asked')
            self.is_idle = False
        if action == 'read halted' and self.is_open:
            self.end_run()
        self.act(action)
        if action == 'sent':
            self.add('strobe')
            self.is_open = True
        if action in ('peek', 'sent'):
            self.is_booting = action == 'peek'
            self.is_idle = action == 'sent'
        elif action == 'read halted' and self.is_booting:
            self.is_booting = False
            self.is_idle = True


def frame_writes(actions, i):
    """The writes from action i on that may be those of one frame: their addresses and bytes, one
    after the other, and at most 1,022."""
    writes = []
    while i + len(writes) < len(actions) and len(writes) < 1022:
        part = actions[i + len(writes)].split()
        if part[0] != 'wrote' or part[1] in ('000', '001'):
            break
        at = int(part[1], 16)
        if writes and at != writes[-1][0] + 1:
            break
        writes.append((at, int(part[2], 16)))
    return writes


def replay(actions, rom):
    made, i = Replay(rom), 0
    while i < len(actions) and made.events < MOST_EVENTS and made.bytes < MOST_BYTES - 30000:
        writes = frame_writes(actions, i)
        behind = i + len(writes)
        if writes:
            if behind == len(actions) or made.events + len(writes) >= MOST_EVENTS:
                break
            made.offer(writes, actions[behind] == 'peek')
            i = behind
        else:
            made.other(actions[i])
            i += 1
    return made


def write_lines(path, lines):
    with open(path, 'w') as out:
        out.write('\n'.join(lines) + '\n')


def write_replay(actions, head, out_trace, out_expected):
    made = replay(actions, read_rom(head))
    write_lines(out_trace, head + made.trace)
    write_lines(out_expected, made.expected)
    count = made.trace.count('tick')
    told = 'all %d actions' % count if count == len(actions) else (
        'the first %d actions of %d, as many as a trace has room for' % (count, len(actions)))
    print('%s; %d frames, %d redraws, %d pictures, %d resets, %d within a frame'
          % (told, made.frames, made.trace.count('redraw'),
             made.pictures, made.resets, made.cut))
    if not made.frames:
        sys.exit('log2trace.py: the log has no frame that was written to its end')


def published(actions):
    """The writes of the last five frames that byte 001 named."""
    frames, latest, i = [], None, 0
    while i < len(actions):
        writes = frame_writes(actions, i)
        if writes:
            i += len(writes)
            latest = writes
        else:
            if actions[i].startswith('wrote 001') and latest:
                frames = [latest] + frames[:4]
            i += 1
    return frames


def write_shots(lines, head, folder):
    shot = 0
    for place, line in enumerate(lines):
        if not line.startswith('# snapshot'):
            continue
        actions = [before.split('#')[0].strip() for before in lines[max(0, place - 9000):place]]
        frames = published([action for action in actions if action])
        for number, writes in enumerate(frames, 1):
            operations = draft(words_of(writes), writes[0][0] // 2)
            write_lines(os.path.join(folder, '%d_%d.draft' % (shot, number)), head + operations)
        shot += 1


def main():
    signal.signal(signal.SIGPIPE, signal.SIG_DFL)
    log, rom_lines, out, other_out = sys.argv[1:5]
    with open(log) as file:
        lines = file.read().splitlines()
    with open(rom_lines) as file:
        head = file.read().splitlines()
    if out == '--shots':
        write_shots(lines, head, other_out)
        return
    actions = [line.split('#')[0].strip() for line in lines]
    write_replay([action for action in actions if action], head, out, other_out)


main()
