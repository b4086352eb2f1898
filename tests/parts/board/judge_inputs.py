"""Gives board/emulator/judge.py inputs that are wrong in some way, and says how many it took:

    judge_inputs.py JUDGE OUT ROM COUNT

JUDGE is judge.py, OUT a folder that judge.lua wrote into, and ROM the vector ROM. Some logs are
wrong by hand; and COUNT times files are cut, have bytes and lines changed by chance, or are
missing. Each run must end with status 0, 1 or 64, with a line that begins with BAD or a verdict,
and without a Python traceback.
"""
import os
import random
import shutil
import subprocess
import sys
import tempfile

judge, out, rom = (os.path.abspath(path) for path in sys.argv[1:4])
count = int(sys.argv[4])
BY_HAND = ['', '\n', 'picture\n', 'wrote FFF 00 1 \n', 'wrote 000 GG 1\n', 'ended\n',
           'watchdog 1\n', 'reset x\n', 'ended 1\n', 'picture 1 1 0\nended 1\n',
           'picture 1 1 0\npicture 1 1 0\nended 1\n', 'room 1\nended 1\n', 'unknown 1\nended 1\n',
           'reset 1\nreset 2 6AF8\nended 3\n', 'wrote 001 E2 1 6AF8\npicture 1 1 1 6AF8\nended 2\n',
           'looked 2403\n', 'looked X 1 6AF8\nended 2\n',
           'wrote 001 E2 1 6AF8\npicture 1 1 0 6AF8\npicture 2 1 0\nlooked 2403 1\npicture 9 1 0\n'
           'ended 9\n']
FILES = ['judge.log', 'torn.log', 'pictures', 'premises', 'rom']
chance = random.Random(1979)


def change(data):
    """Other bytes: none, a part, or some of them by chance; or lines that change places."""
    kind = chance.randrange(6)
    if kind == 0 or not data:
        return b''
    if kind == 1:
        return data[:chance.randrange(len(data))]
    if kind == 2:
        lines = data.split(b'\n')
        chance.shuffle(lines)
        return b'\n'.join(lines)
    if kind == 3:
        lines = data.split(b'\n')
        del lines[chance.randrange(len(lines))]
        return b'\n'.join(lines)
    changed = bytearray(data)
    for _ in range(chance.choice((1, 5, 500))):
        changed[chance.randrange(len(data))] = chance.choice((48, 57, 10, 32, 255, 0, 45))
    return bytes(changed)


def ask(folder, rate='30'):
    words = [sys.executable, judge, folder, os.path.join(folder, 'rom'), rate]
    done = subprocess.run(words, stdout=subprocess.PIPE, stderr=subprocess.STDOUT)
    said = done.stdout.decode(errors='replace')
    is_good = (done.returncode in (0, 1, 64) and 'Traceback' not in said and
               (done.returncode != 1 or '\nBAD' in '\n' + said))
    return is_good, said


def prepare(folder):
    """A small part of what was seen: a few pictures, and what was written for them."""
    with open(os.path.join(out, 'judge.log')) as file:
        lines = file.readlines()
    few = [line for line in lines if not line.startswith(('wrote', 'picture'))]
    first = [line for line in lines if line.startswith(('wrote', 'picture'))][:240]
    with open(os.path.join(folder, 'judge.log'), 'w') as file:
        file.writelines(few[:1] + first + few[1:])
    with open(os.path.join(out, 'torn.log')) as file:
        torn = file.readlines()[:260]
    with open(os.path.join(folder, 'torn.log'), 'w') as file:
        file.writelines(torn)
    with open(os.path.join(out, 'pictures'), 'rb') as file:
        pictures = file.read(2048 * sum(line.startswith('picture') for line in first))
    with open(os.path.join(folder, 'pictures'), 'wb') as file:
        file.write(pictures)
    shutil.copy(rom, os.path.join(folder, 'rom'))
    with open(os.path.join(folder, 'premises'), 'w') as file:
        file.write('kept\n')


def main():
    wrong = []
    with tempfile.TemporaryDirectory() as folder:
        prepare(folder)
        kept = {name: open(os.path.join(folder, name), 'rb').read() for name in FILES}
        for rate in ('0', 'abc', '', '-1', '30.5'):
            is_good, said = ask(folder, rate)
            if not is_good:
                wrong.append('RATE %s: %s' % (rate, said))
        for text in BY_HAND:
            with open(os.path.join(folder, 'judge.log'), 'w') as file:
                file.write(text)
            is_good, said = ask(folder)
            if not is_good:
                wrong.append('%r: %s' % (text, said[-600:]))
        with open(os.path.join(folder, 'judge.log'), 'wb') as file:
            file.write(kept['judge.log'])
        for number in range(count):
            names = chance.sample(FILES, chance.choice((1, 1, 2)))
            for name in names:
                path = os.path.join(folder, name)
                if chance.randrange(12):
                    with open(path, 'wb') as file:
                        file.write(change(kept[name]))
                else:
                    os.remove(path)
            is_good, said = ask(folder)
            if not is_good:
                wrong.append('%d, %s: %s' % (number, names, said[-600:]))
            for name in names:
                with open(os.path.join(folder, name), 'wb') as file:
                    file.write(kept[name])
    for text in wrong[:3]:
        print(text)
    print('%d inputs, %d wrong' % (count + len(BY_HAND), len(wrong)))
    sys.exit(bool(wrong))


main()
