"""Plants mistakes in the 6502 driver, one at a time, and says whether the tests find each:

    mistakes.py DVG DRIVER_FOLDER WORK_FOLDER [sim65]

WORK_FOLDER holds what tests/board built: `schedules`, `exhaust`, and of each map its drafts and
ROM. A mistake is found where random schedules by it differ from `dvg play --all`, or, where they
don't, by the exhaustive run. With `sim65` each eighth of them is planted, and looked for by the
schedules of that 6502 alone. One line a mistake; the last one is 'N of M mistakes found'.
"""
import concurrent.futures
import os
import signal
import subprocess
import sys

DVG, DRIVER, WORK = [os.path.abspath(path) for path in sys.argv[1:4]]
IS_SIM65 = sys.argv[4:] == ['sim65']
SCHEDULES = os.path.join(WORK, 'schedules_sim65' if IS_SIM65 else 'schedules')
SOURCES = {name: open(os.path.join(DRIVER, name)).read() for name in ('driver.s', 'dvg.inc')}
# So many seconds of a processor a program may take: more means that it doesn't end.
LIMIT = 60

# What is done, the text that stands once in the driver, and what stands there instead.
MISTAKES = [
    # The reset and the boot
    ('a reset keeps what was published',
     '        lda #DVG_ZERO\n        sta publish\n        rts',
     '        rts'),
    ('a reset keeps the phase', '        lda #DVG_START\n        sta dvg_phase\n', ''),
    ('the boot takes the current half for the free one', 'eor #$E2', 'eor #$E0'),
    ('the boot looks at byte 000', 'lda DVG_RAM + 1 ', 'lda DVG_RAM     '),
    ('the boot looks at all bits of byte 001',
     '        and #$02\n        eor #$E2',
     '        eor #$E2'),
    ('the boot looks at byte 001 twice',
     'start:  lda DVG_RAM + 1',
     'start:  bit DVG_RAM + 1\n        lda DVG_RAM + 1'),
    ("the boot doesn't wait", 'boot:   dvg_if_running none', 'boot:'),
    ("the boot doesn't look", 'start:  lda DVG_RAM + 1 ', 'start:  lda free        '),
    # Publishing
    ('the flag is read turned round', '        bmi there ', '        bpl there ', 'dvg.inc'),
    ('the flag is bit 6', '        bmi there ', '        bvs there ', 'dvg.inc'),
    ("the strobe doesn't wait", 'wait:   dvg_if_running none', 'wait:'),
    ('it waits before the flip',
     'zero:   lda #$01',
     'zero:   dvg_if_running none\n        lda #$01'),
    ('byte 000 is never written',
     '        lda #DVG_ZERO\n        sta publish',
     '        lda #DVG_FLIP\n        sta publish'),
    ('byte 000 is always written', '        lda #DVG_FLIP\n        sta publish\n', ''),
    ('byte 000 is 0', 'zero:   lda #$01', 'zero:   lda #$00'),
    ('always the same half',
     '        sta DVG_RAM + 1\n        eor #$02 ',
     '        sta DVG_RAM + 1\n        eor #$00 '),
    ('byte 001 is written twice',
     '        sta DVG_RAM + 1\n',
     '        sta DVG_RAM + 1\n        sta DVG_RAM + 1\n'),
    ('the flip is of the current half',
     'flip:   lda free\n',
     'flip:   lda free\n        eor #$02\n'),
    ('the strobe is sent twice',
     '        sta DVG_GO\n',
     '        sta DVG_GO\n        sta DVG_GO\n'),
    ('the strobe comes before the phase',
     '        sta dvg_phase\n        sta DVG_GO',
     '        inc DVG_GO\n        sta dvg_phase'),
    ('no strobe', '        sta DVG_GO\n', ''),
    ('after the strobe it waits again',
     'lda #DVG_IDLE           ; DVG_SEND',
     'lda #DVG_WAIT           ; DVG_SEND'),
    # The bytes of a table, by ticks
    ('a LABS is one word',
     '        cmp #$B0\n        bcc double',
     '        cmp #$A0\n        bcc double'),
    ('a HALT is two words',
     '        cmp #$B0\n        bcc double',
     '        cmp #$C0\n        bcc double'),
    ('second words may be calls',
     '        bcs store               ; a second word',
     '        nop                     ; a second word'),
    ('calls into the ROM are moved',
     '        and #$DC\n        cmp #$C0\n        beq local',
     '        and #%11010000\n        cmp #$C0\n        beq local'),
    ('calls of C4xx are moved',
     '        and #$DC\n        cmp #$C0\n        beq local',
     '        and #%11011000\n        cmp #$C0\n        beq local'),
    ('returns are moved',
     '        and #$DC\n        cmp #$C0\n        beq local',
     '        and #$CC\n        cmp #$C0\n        beq local'),
    ('jumps stay',
     '        and #$DC\n        cmp #$C0\n        beq local',
     '        and #$FC\n        cmp #$C0\n        beq local'),
    ('calls are moved into half 1 always',
     'local:  lda free\n        and #$02\n',
     'local:  lda #$02\n'),
    ('calls are moved into the other half',
     'local:  lda free\n',
     'local:  lda free\n        eor #$02\n'),
    ('the second word is forgotten', 'double: ldx #$80', 'double: ldx #$00'),
    ('no page of the table ends',
     'sty at\n        bne same\n        inc from + 1\n',
     'sty at\n        bne same\n'),
    ('no page of the half ends',
     '        inc from + 1\n        inc to + 1\n        dec pages\nsame:',
     '        inc from + 1\n        dec pages\nsame:'),
    ('pages are not counted',
     '        inc to + 1\n        dec pages\nsame:',
     '        inc to + 1\nsame:'),
    ('it ends a page early',
     'same:   cpy end\n        bne done\n        lda pages\n        bne done',
     'same:   cpy end\n        bne done'),
    ('it ends where a page does', 'same:   cpy end\n        bne done\n', 'same:\n'),
    ('a byte is written twice', 'store:  sta (to),y', 'store:  sta (to),y\n        sta (to),y'),
    # The same, by the fast loop
    ('fast: a LABS is one word',
     '        cmp #$B0\n        bcc two',
     '        cmp #$A0\n        bcc two'),
    ('fast: second words may be calls',
     '        bcs put                 ; a',
     '        nop                     ; a'),
    ('fast: calls of C4xx are moved',
     '        and #$DC\n        cmp #$C0\n        beq ours',
     '        and #%11011000\n        cmp #$C0\n        beq ours'),
    ('fast: jumps stay',
     '        and #$DC\n        cmp #$C0\n        beq ours',
     '        and #$FC\n        cmp #$C0\n        beq ours'),
    ('fast: it begins at a high byte',
     '        bcs tick                ; a high',
     '        nop                     ; a high'),
    ('fast: no page of the table ends',
     'put:    sta (to),y\n        iny\n        bne page\n        inc from + 1\n',
     'put:    sta (to),y\n        iny\n        bne page\n'),
    ('fast: it ends a page early',
     'page:   cpy end\n        bne low\n        lda pages\n        bne low\n',
     'page:   cpy end\n        bne low\n'),
    ('fast: byte 000 is always written',
     '        lda publish\n        sta dvg_phase\n        bne tick ',
     '        lda #DVG_ZERO\n        sta dvg_phase\n        bne tick '),
    # Offers and redraws
    ('a frame is taken while busy',
     'dvg_offer:\n        ldy dvg_phase\n        cpy #DVG_IDLE\n',
     'dvg_offer:\n        ldy dvg_phase\n        cpy #DVG_START\n'),
    ('a frame is taken while one is built',
     'dvg_offer:\n        ldy dvg_phase\n        cpy #DVG_IDLE\n        bne refuse',
     'dvg_offer:\n        ldy dvg_phase\n        cpy #DVG_BUILD\n        beq *+6\n'
     '        cpy #DVG_IDLE\n        bne refuse'),
    ('an old second word counts', 'sized:  sty second', 'sized:  nop       '),
    ('the phase stands before the table',
     '        sta from\n        stx from + 1\n        ldy #1\n',
     '        ldy #DVG_WRITE\n        sty dvg_phase\n        sta from\n'
     '        stx from + 1\n        ldy #1\n'),
    ('the length has no carry',
     '        inc end\n        bne sized\n        inc pages\n',
     '        inc end\n'),
    ('the length has 8 bits', '        rol pages\n', '        lsr pages\n'),
    ('busy is answered as taken', 'refuse: sec', 'refuse: clc'),
    ('taken is answered as busy',
     '        stx dvg_phase           ; last, as the NMI may tick\n        clc',
     '        stx dvg_phase           ; last, as the NMI may tick\n        sec'),
    ('a redraw before a frame is taken',
     '        cmp #DVG_FLIP\n        bne refuse ',
     '        cmp #DVG_FLIP\n        nop\n        nop ; '),
    ('a redraw while busy is taken',
     '        lda dvg_phase\n        cmp #DVG_IDLE\n        bne refuse\n'
     '        lda publish',
     '        lda publish'),
    ('a redraw flips', '        lda #DVG_WAIT\n', '        lda #DVG_FLIP\n'),
    # Several ticks
    ('dvg_ticks does one too few',
     '        sta left\n',
     '        sta left\n        dec left\n'),
    ('dvg_ticks does one too many',
     '        dec left\n        bne again\n',
     '        dec left\n        bpl again\n'),
    ('dvg_run ends before the strobe',
     '        cmp #DVG_BUILD\n        beq ran\n',
     '        cmp #DVG_SEND\n        beq ran\n'),
    ('dvg_run ends while it waits',
     '        cmp #DVG_BUILD\n        beq ran\n',
     '        cmp #DVG_WAIT\n        beq ran\n'),
    # What a program builds
    ('a frame is begun while busy',
     'dvg_open:\n        ldy dvg_phase\n        cpy #DVG_IDLE\n',
     'dvg_open:\n        ldy dvg_phase\n        cpy #DVG_START\n'),
    ('a frame is begun in the current half',
     '        lda free\n        and #$02\n        asl a ',
     '        lda free\n        eor #$02\n        and #$02\n        asl a '),
    ('a word is put while busy',
     'dvg_put:\n        ldy dvg_phase\n        cpy #DVG_BUILD\n        bne refuse\n',
     'dvg_put:\n'),
    ('room for a word too many', '        cpy #$FE\n', '        cpy #$FF\n'),
    ('room for a word too few', '        cpy #$FE\n', '        cpy #$FC\n'),
    ('room for a pair too many', '        cpy #$FC\n', '        cpy #$FE\n'),
    ('a pair loses its page', '        bne other\n        inc to + 1\n', '        bne other\n'),
    ('a LABS loses its scale', '        ora dvg_x + 1\n        sta dvg_x + 1\n', ''),
    ('a copy looks for no room', '        cmp #4 ', '        cmp #5 '),
    ('a copy leaves a page free', '        cmp #4 ', '        cmp #3 '),
    ('a copy takes its source first',
     '        sty length\n        ldy dvg_phase ',
     '        sta from\n        stx from + 1\n        sty length\n        ldy dvg_phase '),
    ('a copy loses a page of its source', 'bne more\n        inc from + 1\n', 'bne more\n'),
    ('a copy has no borrow', '        bcs begin\n        dec from + 1\n', ''),
    ('a copy leaves the place', 'bne next\n        sty at\n', 'bne next\n'),
    ('no HALT',
     '        lda #$B0                ; the HALT',
     '        lda #$B0 + $20          ; the HALT'),
    ('a frame that is built is never published',
     '        sta (to),y\n        lda publish\n',
     '        sta (to),y\n        lda #DVG_IDLE\n'),
    ('a LABS takes all of y', '        and #$0F\n        ora #$A0', '        ora #$A0'),
    ('a LABS takes all of x', '        and #$F0\n        eor dvg_x', '        eor dvg_x'),
    ('a vector has any scale',
     '        cmp #$A0\n        bcs beyond',
     '        cmp #$F0\n        bcs beyond'),
    ('a vector goes one too far back', 'less:   dec dvg_y,x', 'less:'),
    ('a vector loses a page of its minus',
     '        bne less\n        dec dvg_y + 1,x\n',
     ''),
    ('a vector goes any way back',
     '        eor #$FF\n        cmp #$04\n        bcs beyond',
     '        eor #$FF\n        and #$03'),
    ('a vector goes any way on', 'plus:   cmp #$04\n        bcs beyond', 'plus:   and #$03'),
    ('a vector has no sign', 'ora #$04                ; the sign',
     'ora #$00                ; the sign'),
    ('a short vector loses a move', '  lda dvg_y\n        ora dvg_x\n', '  lda dvg_y\n'),
    ('a short vector has scale 6', '        cmp #$60', '        cmp #$70'),
    ('a short vector has no scale 2', '        cmp #$20', '        cmp #$30'),
    ('a short vector is slow', '        bvc near', '        bvs near'),
    # Where there is nothing to do
    ('dvg_ticks rests, and leaves its count',
     'again:  jsr dvg_tick\n        dec left\n        bne again\n        rts\n',
     'again:  jsr dvg_tick\n        lda dvg_phase\n        cmp #DVG_IDLE\n        beq *+6\n'
     '        dec left\n        bne again\n        rts\n'),
    ('dvg_ticks rests before its last tick',
     'again:  jsr dvg_tick\n        dec left\n        bne again\n        rts\n',
     'again:  jsr dvg_tick\n        lda dvg_phase\n        cmp #DVG_IDLE\n        beq rested\n'
     '        dec left\n        bne again\nrested: lda #0\n        sta left\n        rts\n'),
    ('dvg_run runs on while a frame is being built',
     '        cmp #DVG_BUILD\n        beq ran\n',
     ''),
]


def planted(mistake):
    """The sources with a mistake."""
    name, old, new = mistake[:3]
    file = mistake[3] if len(mistake) > 3 else 'driver.s'
    if SOURCES[file].count(old) != 1:
        sys.exit("mistakes.py: '%s' isn't planted at one place" % name)
    return {**SOURCES, file: SOURCES[file].replace(old, new)}


def run(command, folder):
    limited = ['sh', '-c', f'ulimit -t {LIMIT}; exec "$@"', 'sh', *command]
    done = subprocess.run(limited, cwd=folder, capture_output=True, text=True)
    if done.returncode in (-signal.SIGXCPU, -signal.SIGKILL):
        return subprocess.CompletedProcess(command, 1, "it doesn't end\n", '')
    return done


def assemble(folder, sources):
    for name, text in sources.items():
        with open(os.path.join(folder, name), 'w') as out:
            out.write(text)
    config = os.path.join(DRIVER, 'driver.cfg')
    link = ['ld65', '-C', config, '-Ln', 'driver.lbl', '-o', 'driver.bin', 'driver.o']
    for command in (['ca65', '-g', '-o', 'driver.o', 'driver.s'], link):
        done = run(command, folder)
        if done.returncode:
            sys.exit('mistakes.py: a mistake is not assembled: ' + done.stderr[:300])


def is_entry(line):
    """A line of a stroke is five numbers; all others are entries."""
    return len(line.split()) != 5 or not line.replace(' ', '').isdigit()


def first_difference(path):
    """Where the answer to a trace isn't what the 6502 did."""
    with open(path + '.trace') as trace:
        played = subprocess.run([DVG, 'play', '--all'], stdin=trace, capture_output=True, text=True)
    entries = [line for line in played.stdout.splitlines() if is_entry(line)]
    wanted = open(path + '.expected').read().splitlines()
    for entry, other in zip(entries, wanted):
        if entry != other:
            return "'%s', and the proved driver '%s'" % (other, entry)
    return 'another length' if len(entries) != len(wanted) else None


def found_by_schedules(folder):
    for map_size, seed in (('2048', 1), ('4096', 2), ('2048', 3)):
        inputs = [os.path.join(WORK, name + map_size) for name in ('drafts', 'rom', 'lines')]
        words = [SCHEDULES, 'driver.bin', 'driver.lbl'] + inputs
        done = run(words + ['.', str(seed), '30', '3000'], folder)
        if done.returncode:
            return (done.stdout or 'killed').strip().splitlines()[-1]
        traces = [name[:-6] for name in sorted(os.listdir(folder)) if name.endswith('.trace')]
        for name in traces:
            difference = first_difference(os.path.join(folder, name))
            if difference:
                return difference
            os.remove(os.path.join(folder, name + '.trace'))
    return None


def found_by_exhaust(folder):
    done = run([os.path.join(WORK, 'exhaust'), 'driver.bin', 'driver.lbl'], folder)
    if not done.returncode:
        return None
    return 'the exhaustive run: ' + done.stdout.strip().splitlines()[-1]


def try_mistake(number):
    folder = os.path.join(WORK, 'mistake%d' % number)
    os.makedirs(folder, exist_ok=True)
    assemble(folder, planted(MISTAKES[number]))
    return found_by_schedules(folder) or (not IS_SIM65 and found_by_exhaust(folder))


def main():
    numbers = range(0, len(MISTAKES), 8 if IS_SIM65 else 1)
    with concurrent.futures.ThreadPoolExecutor(2) as pool:
        found = list(pool.map(try_mistake, numbers))
    for number, said in zip(numbers, found):
        print('%-50s %s' % (MISTAKES[number][0], said or 'NOT FOUND'))
    print('%d of %d mistakes found' % (sum(map(bool, found)), len(found)))
    sys.exit(not all(found))


main()
