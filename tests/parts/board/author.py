"""Plants an author's mistakes in examples/bat, one at a time, and says which tool names each:

    author.py GAME                  each by the tool that is the first to name it
    author.py --all GAME            each by all tools, as a table: who names it, in how many seconds
                                    of a processor, and in which words

GAME is a copy of examples/bat that was made, beside copies of board/ and tests/. The tools are
`make` itself, `make proof`, `make premises`, `make sound` and `make judge`, in this order; the last
two need the emulator. A mistake that no tool names must be let through by the first three. One line
a mistake that isn't named so; the last one is 'N of M mistakes are named, by ..'.
"""
import collections
import concurrent.futures
import os
import re
import resource
import shutil
import subprocess
import sys

TOOLS = {'make': 'roms', 'proof': 'proof', 'premises': 'premises', 'sound': 'sound',
         'judge': 'judge'}
SECONDS = 2                         # of the board's time, which a run lasts
STILL = 1                           # of these, for which redraws alone may come
GAME, SHAPES, BUTTONS, MAKEFILE = 'game.s', 'shapes.sketch', 'buttons.txt', 'makefile'
PICTURE, CLOSE = 'picture:\n', '        jmp dvg_close\n'
NMI, CODE = 'nmi:    inc beats', 'reset:  lda'
FLIES, MISSED, SCORE = 'flies:  rts', 'missed: jmp serve', 'score:  .res SCORE_DIGITS'
MOVES, LOOP, DRAW = '        jsr move_bat\n', '        jmp picture\n', 'draw:   jsr dvg_open'
TITLE = 'title:  line_at'
SPARE = [(GAME, SCORE, SCORE + '\nspare:  .res 1')]
LEFT = '        bit IN_LEFT\n        bpl no_left\n'
BALL = 'ball: 0,0 12,0 12,12 0,12 0,0\n'


def edit(old, new, file=GAME):
    return [(file, old, new)]


def each_picture(text):
    """Instructions in the loop."""
    return edit(PICTURE, PICTURE + text + '\n')


def drawn(text):
    """Instructions before the frame is closed."""
    return edit(CLOSE, text + '\n' + CLOSE)


def line(a, length=512):
    """A line to the right, after the score."""
    return drawn(f'''
        lda #<{length}
        sta dvg_x
        lda #>{length}
        sta dvg_x + 1
        lda #0
        sta dvg_y
        sta dvg_y + 1
        lda #{a}
line:   jsr dvg_vector''')


def halting(count):
    """After so many pictures the loop only redraws."""
    begins = edit('        jsr serve\n', ' jsr serve\n lda #0\n sta spare\n')
    return SPARE + begins + edit(LOOP, f'''
        inc spare
        lda spare
        cmp #{count}
        bcs frozen
        jmp picture
frozen: lda #0
        sta beats
        lda #4
        jsr rest
        jsr dvg_redraw
        jsr dvg_run
        jmp frozen
''')


def dots(list_x):
    """A ball at each of four places, of which the list of X has these."""
    lists = f'dots_x: .byte {list_x}\ndots_y: .byte 2, 4, 6, 8'
    return SPARE + edit(TITLE, lists + '\n' + TITLE) + drawn('''
        lda #3
        sta spare
dots:   ldy spare
        lda dots_x,y
        sta dvg_x
        lda dots_y,y
        sta dvg_y
        lda #2
        sta dvg_x + 1
        sta dvg_y + 1
        lda #0
        jsr dvg_labs
        dvg_call ball
        dec spare
        bpl dots''')


def listed(bound):
    """A shape of a list of two, which this bounds."""
    lists = ('.segment "DATA"\n.define OWN $C000 | bat, $C000 | ball\nown_low:  .lobytes OWN\n'
             'own_high: .hibytes OWN\n.segment "CODE"\n')
    text = f'ldy score\n{bound}\n lda own_low,y\n ldx own_high,y\n jsr dvg_put\nbeyond:'
    return edit(CODE, lists + CODE) + drawn(text)


# Of each what it is, the edits, the tool that is the first to name it, or None, and its words. Two
# seconds have 492 NMIs, so 62 pictures begin. The tenth one is shown when 80 NMIs have come, after
# 0.325 s. Seven letters of 36 units come before the line, which begins at 672; a letter is 24 wide
# and 36 high.
MISTAKES = [
    # Of a trial by somebody who wrote none of the tools
    ('no watchdog in the loop', edit('rest:   sta WATCHDOG', 'rest:'), 'judge',
     '^BAD: the watchdog: .* without a write'),
    ('lda 8 for lda #8', edit('lda #8 ', 'lda 8 ') + edit('lda #4\n', 'lda 4\n'), 'judge',
     '^BAD: too many new pictures: .*lda #8'),
    ('an NMI that loses A', edit(NMI, 'nmi:    lda #0'), 'proof', 'does not give back A'),
    ('RTS for RTI', edit('irq:    rti', 'irq:    rts'), 'proof', 'the NMI ends with RTI'),
    ('a shape without $C0', drawn(' lda #<ball\n ldx #>ball\n jsr dvg_put'), 'proof',
     'which is no call of a shape, nor a short vector: dvg_call NAME'),
    ('an array in the zero page',
     edit('.segment "BSS"  ', '.segment "ZEROPAGE"'), 'proof',
     'by its index it may reach 0100, .*: let the array stand from 0200 on'),
    ('no dvg_close on one way', drawn(' bit IN_LEFT\n bpl closes\n rts\ncloses:'), 'premises',
     '^broken: dvg_open before dvg_close, by .*draw'),
    ('a shape without return', edit(BALL, 'ball: vctr 4 384 0 9\nbox: 0,0 12,0\n', SHAPES), 'make',
     '^warning: ball has no return, and goes on into box'),
    ('the scale 9 for 5', line('$99'), 'premises',
     r"^warning: a part isn't seen of what game.s line 206 \(line\), from .* puts, in each of 62 "
     'pictures: it goes from 672, 780 to 1184, 780, and the tube shows 0, 117 to 1023, 905$'),
    ('no scale', line('9'), 'premises',
     r'^warning: all is of scale 0 of what .* \(line\), .*: at most 1.0 units; A is 16 times'),
    ('no intensity', line('$50'), 'premises',
     r'^warning: nothing is seen of what .* \(line\), .* puts, in 62 pictures: all is dark$'),
    ('a text above the tube', edit('line_at 420, 780', 'line_at 420, 950'), 'premises',
     '^warning: nothing is seen of what .*, from .*draw.* it goes from 420, 950 to 588, 986, and'),
    ('a letter without a shape', edit('"SCORE "', '"SCORE* "'), 'make',
     'line_at has no letter 6 of this line: SCORE'),
    ('a subroutine that is left by JMP', edit(FLIES, 'flies:  jmp picture'), 'proof',
     "^refused: .*which is main, not sub: a subroutine ends with RTS, and doesn't lead into"),
    ('NMI and reset exchanged', edit('.word nmi, reset, irq', '.word reset, nmi, irq'), 'proof',
     r'VECTORS has \.word nmi, reset, irq, in this order'),
    ('a vector of 1,024', line('$59', 1024), 'premises',
     r'^warning: 62 instructions were left out, as there is no such vector.* \(line\), from game.s '
     r'line 50 \(picture \+ 6\), at 0.0'),
    ('a variable that nothing sets', edit('serve:  lda #0\n        sta score\n', 'serve:\n'),
     'premises', '^warning: .* bytes that nothing had written, .* score$'),
    ('no LABS at first', edit('draw_at wall_x, wall_y, wall', 'dvg_call wall'), 'proof',
     'the frame may be empty yet: begin it with dvg_labs'),
    ('SED', edit(FLIES, 'flies:  sed\n rts'), 'premises',
     '^warning: .* sums were decimal at one time and binary at another: is a CLD missing?'),
    ('a sound that never stops', edit('serve:  lda #0', 'serve:  lda #SOUND_ON\n sta SOUND_SHIP\n'
                                      ' lda #0'), 'sound', '^on at the end: SOUND_SHIP, since 0.0'),
    ('OUT_BANKS for a lamp', each_picture(' lda #OUT_BANKS\nlamps: sta OUTPUTS'), 'judge',
     '^warning: OUT_BANKS was set by ...., lamps'),
    ('the switch of another button', edit(LEFT, LEFT.replace('LEFT', 'SLAM') + 'to_left:\n'),
     'premises', '^never run: .*to_left'),
    ('it hangs at once', edit(PICTURE, PICTURE + ' jmp picture\n'), 'premises',
     '^warning: no frame was built or offered'),
    ('an NMI that draws', edit(NMI, NMI + '\n jsr draw'), 'proof',
     r'^refused: .*\(nmi.*: the NMI calls a subroutine: write its'),
    ('a strobe of its own', each_picture(' sta DVG_GO'), 'proof', 'it writes 3000, the strobe'),
    ('dvg_run inside a frame', drawn(' jsr dvg_run'), None, 'it returns at once: no harm'),
    ('clears the vector RAM', edit('        sta WATCHDOG\n', '        sta WATCHDOG\n ldx #0\n txa\n'
                                   'clear:  sta DVG_RAM,x\n inx\n bne clear\n'), 'proof',
     'by its index it may reach 4000, the vector RAM'),
    ('too many shapes', edit(BALL, BALL + 'more: ' + '1,0 2,0 ' * 200 + '\n', SHAPES), 'make',
     '^dvg: the shapes take [0-9]* bytes of 2048'),
    ('more variables than page 2 has', edit(SCORE, SCORE + '\nrows:   .res 600'), 'make',
     "overflows memory area 'RAM' by 89 bytes"),
    ('a shape named x', edit(BALL, BALL + 'x: 1,2\n', SHAPES), 'make',
     "no name for a shape or a table: x, which is the assembler's own"),
    ('a wrong name in dvg_call', drawn(' dvg_call bal'), 'make', r"game.s.*: Error: .*'bal'"),
    ('a branch too far', edit(MISSED, 'missed: beq reset\n jmp serve'), 'make',
     r'game.s.*: Error: Range error'),
    ('a jump by a table', edit(MISSED, 'missed: jmp (text)'), 'proof',
     'leads nobody knows where: compare, and JMP'),
    ("a button that isn't there", edit('0.20 left down', '0.20 lift down', BUTTONS), 'premises',
     'buttons.txt line 2: expected TIME BUTTON .*: 0.20 lift down'),
    ('A 1 for 16 in dvg_labs', edit('lda #0              ; 16 times', 'lda #1 ; 16 times'),
     'premises', '^warning: .* calls of dvg_labs have bits 3 to 0 of A set: A is 16 times'),
    # Of whoever wrote this
    ('no dvg_run', edit('        jsr dvg_run         ; waits for the', '; waits for the')
     + edit('        jsr dvg_redraw\n        jsr dvg_run\n', ''), 'premises',
     '^warning: .* calls of dvg_open were refused, as the driver was busy'),
    ('the low byte for the high one', drawn(' lda #>($C000 | bat)\n ldx #<($C000 | bat)\n'
                                            ' jsr dvg_put'), 'proof', 'which is no call of a'),
    ("a list's bound that is one too large", listed(' cpy #3\n bcs beyond'), 'proof',
     'it puts ...., which is no call of a shape'),
    ("a list's bound that is left out", listed(''), 'proof',
     'it puts ...., which is no call of a shape'),
    ('a PHA on one way', edit(FLIES, 'flies:  bne even\n pha\neven:   rts'), 'proof',
     'push and pull as much on each way'),
    ('a subroutine that calls itself', edit(MISSED, 'missed: jsr move_ball\n jmp serve'), 'proof',
     'does a subroutine call itself'),
    ('a variable among the constants', edit('bat_y:  .word', 'lives:  .byte 3\nbat_y:  .word')
     + edit(MISSED, 'missed: dec lives\n jmp serve'), 'proof',
     'ROM: what changes stands in RAM'),
    ('an NMI that waits', edit(NMI, 'nmi:    bit IN_SLAM\n bmi nmi\n inc beats'), 'proof',
     'bmi .*the NMI may loop'),
    ('an NMI that counts nothing', edit(NMI, 'nmi:'), 'judge', '^BAD: no picture .* rest'),
    ('the low byte of dvg_x alone', edit(
        CLOSE, ' lda #40\n sta dvg_x\n lda #200\n sta dvg_y\n lda #1\n sta dvg_y + 1\n lda #0\n'
        'half:   jsr dvg_labs\n dvg_call ball\n' + CLOSE), 'premises',
     r'^warning: .* take bytes of dvg_x or dvg_y from before the last one, .* \(half\), from'),
    ('beats that are never set back', edit('        lda #0\n        sta beats\n', ''), 'judge',
     '^BAD: too many new pictures'),
    ('a coin counter that stays on', each_picture(' lda #OUT_COIN_LEFT\n sta OUTPUTS'), 'sound',
     '^on at the end: OUT_COIN_LEFT, since 0.0'),
    ('presses in milliseconds', edit('0.20 left down\n0.50 left up', '200 left down\n500 left up',
                                     BUTTONS), 'judge',
     '^warning: 0 of 2 presses of the file of buttons came: its times are seconds$'),
    ('a text beyond the right edge', edit('line_at 420, 780', 'line_at 960, 780'), 'premises',
     "^warning: a part isn't seen of .* it goes from 960, 780 to 1128, 816, and the tube"),
    ('two shapes of one name', edit(BALL, BALL + 'bat: 1,2\n', SHAPES), 'make',
     '^dvg: name given again at shapes.sketch line 6'),
    ('a program that is too large', edit('bat_y:  .word', ' .res 6000\nbat_y:  .word'), 'make',
     "overflows memory area 'PROG'"),
    ('no font in SKETCH', edit('../../board/letters.sketch ', '', MAKEFILE), 'make',
     'letters.inc.*: Error: .*digit_0'),
    ('a button by BEQ', edit(LEFT, LEFT.replace('bpl', 'beq')), 'premises',
     '^warning: .* branches by BEQ or BNE look at all bits of a switch.* .move_bat'),
    ('switches without their mask', each_picture(' lda SWITCHES_SHIPS\n bne four\n nop\nfour:'),
     'premises', '^warning: .*AND #SWITCHES_MASK leaves two, .* .picture'),
    # Of a game that somebody wrote by the papers alone
    ('a picture that stands still', halting(10), 'judge',
     r'^BAD: no new picture for 1\.[67] seconds, from 0\.32[56] s on: redraws alone; after a second'
     r' the program was in ...., rest( \+ [0-9])?, from ...., frozen \+ [0-9]*; no button and no'),
    ('a JMP for a JSR', edit(MOVES, MOVES.replace('jsr', 'jmp')), 'proof',
     r'^refused: .*it returns from level main.*: is the JMP at game.s line 48 \(picture\) one'),
    ('JMP and JSR to one subroutine',
     each_picture(' bit IN_FIRE\n bpl calls\n jmp move_bat\ncalls:'), 'proof',
     r'^refused: .* it goes on at game.s line [0-9]* \(move_bat\), which is'),
    ('a loop without its JMP', edit(LOOP, ''), 'proof',
     r'^refused: .*it runs on into game.s line 62 \(rest\), .*: is an RTS or JMP missing'),
    ('an RTS that is left out', SPARE + edit(DRAW, 'blink:  inc spare\n' + DRAW)
     + each_picture(' jsr blink'), 'premises',
     r'^warning: 62 calls of dvg_open were refused, .* \(blink\), runs on into draw: is an rts'),
    ('a text behind the end of a frame', edit(CLOSE, ' jsr dvg_close\nafter:  say title\n rts\n'),
     'premises', f'^warning: {62 * 7} instructions were put outside of a frame, the first by let'
     r'ters.inc line 56 \(print \+ 28\), from .* \(after \+ 4\), from .* \(picture \+ 6\), at'),
    ('a ROL of what nothing set', drawn(
        ' lda #40\n sta dvg_x\n rol dvg_x + 1\n lda #200\n sta dvg_y\n lda #0\n sta dvg_y + 1\n'
        'half:   jsr dvg_labs\n dvg_call ball'), 'premises',
     r'^warning: 62 calls .* take bytes of dvg_x or dvg_y from before the last .* \(half\), from'),
    ('X after a call of the driver',
     drawn(' ldx #3\neach:   dvg_call ball\nlost:   dex\n bpl each'), 'premises',
     r'^warning: 62 uses of X come after a call .* \(lost\), from .* \(picture \+ 6\), at'),
    ('a list of places that is short by one', dots('1, 3, 5'), 'premises',
     '^warning: 62 reads go beyond the end of dots_x, by up to 1 byte, into dots_y, the firs'
     r't by game.s line 202 \(dots \+ 3\), from .* \(picture \+ 6\), at 0.0'),
    ('a variable with a value', edit('beats:  .res 1 ', 'beats:  .byte 8 '), 'make',
     '^make: a variable has no value at first: .res reserves it'),
    ('a segment that there is not', edit('"DATA"\n\nwall_x', '"RODATA"\n\nwall_x'), 'make',
     '^make: the segments are ZEROPAGE and BSS for variables'),
    ('BMI for BPL', edit(LEFT, LEFT.replace('bpl', 'bmi')), None,
     'no tool knows which way a button should go'),
]


def planted(game, number):
    """A folder with a mistake, beside the game; its text is None where it can't be planted."""
    folder = f'{os.path.dirname(game)}/mistake_{number}'
    shutil.copytree(game, folder, symlinks=True)
    for file, old, new in MISTAKES[number][1]:
        with open(f'{folder}/{file}', encoding='ascii') as source:
            text = source.read()
        if text.count(old) != 1:
            sys.exit(f"author.py: '{MISTAKES[number][0]}' isn't planted at one place")
        with open(f'{folder}/{file}', 'w', encoding='ascii') as source:
            source.write(text.replace(old, new))
    return folder


def asked(folder, tool):
    """What a tool says of a folder, its status, and the seconds of a processor that it took."""
    before = resource.getrusage(resource.RUSAGE_CHILDREN)
    done = subprocess.run(['make', '-s', TOOLS[tool], f'JUDGED={SECONDS}', f'STILL={STILL}'],
                          cwd=folder, text=True, stdout=subprocess.PIPE, stderr=subprocess.STDOUT,
                          check=False)
    after = resource.getrusage(resource.RUSAGE_CHILDREN)
    took = after.ru_utime + after.ru_stime - before.ru_utime - before.ru_stime
    return done.stdout, done.returncode, took


def try_first(job):
    """What is against: the tool that should name a mistake doesn't, or one says something where
    none should."""
    game, number = job
    folder = planted(game, number)
    name, _, tool, words = MISTAKES[number]
    if tool:
        said = asked(folder, tool)[0]
        fault = None if re.search(words, said, re.M) else f'{tool} says: {said}'
    else:
        answers = [asked(folder, each) for each in ('make', 'proof', 'premises')]
        fault = next((said for said, status, _ in answers if status or 'warning' in said), None)
    shutil.rmtree(folder)
    return fault and f'{name}: {fault}'


def faults_in(said, status, tool):
    """The first line in which a tool names something, or None."""
    marks = r'^(BAD|warning|broken|refused|on at the end|never run|dvg|keeps to|no name)\b|Error|' \
        'overflow|expected TIME|^0 of'
    lines = [text for text in said.splitlines() if re.search(marks, text)]
    return lines[0] if lines and (status or tool != 'make' or 'warning' in said) else None


def row(job):
    """A line of the table: the mistake, and each tool that names it."""
    game, number = job
    folder = planted(game, number)
    name, _, first, words = MISTAKES[number]
    cells = []
    for tool in TOOLS:
        said, status, took = asked(folder, tool)
        told = re.search(f'.*{words}.*', said, re.M) if tool == first else None
        found = told[0].strip() if told else faults_in(said, status, tool)
        cells.append(f'{took:.1f} s: {found}' if found else f'{took:.1f} s')
        if tool == 'make' and status:
            break
    shutil.rmtree(folder)
    return f'| {name} | ' + ' | '.join(cells + ['-'] * (len(TOOLS) - len(cells))) + ' |'


def main():
    wants_all = sys.argv[1] == '--all'
    game = os.path.abspath(sys.argv[-1])
    jobs = [(game, number) for number in range(len(MISTAKES))]
    with concurrent.futures.ProcessPoolExecutor(2) as pool:
        answers = list(pool.map(row if wants_all else try_first, jobs))
    took = resource.getrusage(resource.RUSAGE_CHILDREN)
    print('\n'.join(filter(None, answers)))
    named = collections.Counter(tool for _, _, tool, _ in MISTAKES if tool)
    tools = ', '.join(f'{count} by {tool}' for tool, count in named.items())
    wrong = 0 if wants_all else sum(map(bool, answers))
    print(f'{sum(named.values()) - wrong} of {len(MISTAKES)} mistakes are named: {tools}; in '
          f'{took.ru_utime + took.ru_stime:.0f} seconds of a processor')
    sys.exit(wrong > 0)


if __name__ == '__main__':
    main()
