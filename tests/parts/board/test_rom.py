"""For tests/board --judge: whether examples/test_rom shows each switch as it is:

    test_rom.py MACHINE FOLDER BUTTONS

MACHINE is the emulator's name of the board. FOLDER has what judge.lua wrote, and the folder above
it shapes.equates. BUTTONS are lines of a
time, a button and `down` or `up`, where one button is down at a time. The texts of a picture are
read back out of the words in the vector RAM. What is shown wrong is printed, and the status is 1.
"""
import os
import sys

LABS, CALL, HALT = 10, 12, 11
ROWS = {'left': 'LEFT', 'right': 'RIGHT', 'thrust': 'THRUST', 'fire': 'FIRE', 'slam': 'SLAM',
        'hyperspace': 'HYPER', 'start_1': 'START 1', 'start_2': 'START 2', 'coin_left': 'COIN L',
        'coin_center': 'COIN C', 'coin_right': 'COIN R', 'step': 'STEP', 'test': 'TEST'}
SWITCHES = {'SW 87': '2', 'SW 65': '0', 'SW 43': '1', 'SW 21': '0'}
SWITCHES_OF_DELUXE = {'SW 87': '0', 'SW 65': '0', 'SW 43': '0', 'SW 21': '0', 'POKEY': '11111101'}


def read_glyphs(path):
    """The letter that stands at each word of the ROM."""
    glyphs = {}
    with open(path) as file:
        for line in file:
            name, _, place = line.split()
            kind, _, letter = name.partition('_')
            if kind in ('digit', 'letter') or name == 'blank':
                glyphs[int(place[1:], 16)] = ' ' if name == 'blank' else letter.upper()
    return glyphs


def texts(memory, glyphs):
    words = [memory[k] + 256 * memory[k + 1] for k in range(0, len(memory), 2)]
    at, text = words[0] & 0xFFF, ''
    while words[at] >> 12 != HALT:
        if words[at] >> 12 == LABS:
            yield text
            text, at = '', at + 2
        else:
            text, at = text + glyphs.get(words[at] & 0xFFF, '?'), at + 1
    yield text


def shown(memory, glyphs):
    """What stands behind the last blank of each text."""
    parts = [text.rpartition(' ') for text in texts(memory, glyphs)]
    return {name: value for name, blank, value in parts if blank}


def main():
    machine, folder, buttons = sys.argv[1:]
    is_deluxe = machine == 'astdelux'
    rows_of = dict(ROWS, hyperspace='SHIELDS') if is_deluxe else ROWS
    glyphs = read_glyphs(os.path.join(folder, '..', 'shapes.equates'))
    with open(os.path.join(folder, 'judge.log')) as log:
        times = [float(line.split()[1]) for line in log if line.startswith('picture ')]
    with open(os.path.join(folder, 'pictures'), 'rb') as file:
        memories = file.read()
    with open(buttons) as file:
        events = [line.split() for line in file]
    wrong = clocks = 0
    for (down, name, _), (up, _, _) in zip(events[::2], events[1::2]):
        middle = (float(down) + float(up)) / 2
        number = max(k for k, time in enumerate(times) if time <= middle)
        rows = shown(memories[2048 * number:2048 * number + 2048], glyphs)
        expected = {row: '1' if row == rows_of[name] else '0' for row in rows_of.values()}
        expected.update(SWITCHES_OF_DELUXE if is_deluxe else SWITCHES)
        clock, beats = rows.pop('CLOCK', None), rows.pop('NMI', None)
        clocks += clock == '1'
        if rows != expected or clock not in ('0', '1') or beats is None or not beats.isdigit():
            print('%s is held: %s' % (name, rows))
            wrong += 1
    print('%d buttons, each shown as it is' % (len(events) // 2 - wrong))
    sys.exit(wrong > 0 or not 0 < clocks < len(events) // 2)


main()
