"""Makes a moving picture, as SVG, of what judge.lua saw of a program:

    film.py OUT ROM FROM TO >FILM.svg

OUT is the folder that judge.lua wrote into, ROM the bytes of the vector ROM. The film has what was
drawn from the second FROM, or the first picture, to the second TO, twelve pictures a second, and
begins anew at its end.
It shows as much of the screen as the emulator does; where less motion is preferred, the first
picture alone. The program is ./dvg of this repository, or the one that DVG names.
"""
import os
import signal
import subprocess
import sys

HERE = os.path.dirname(os.path.realpath(__file__))
DVG = os.environ.get('DVG') or os.path.join(HERE, '..', '..', 'dvg')
RAM, RATE = 2048, 12
BOTTOM, HIGH = 117, 788

# A stroke is two units wide, as in each writer of SVG that crates/dvg_svg/src/pictures.rt names.
HEAD = """<svg xmlns="http://www.w3.org/2000/svg" width="512" height="394" viewBox="0 0 1024 788">
<style>
@keyframes shown {{ from {{ visibility: visible }} {percent:.3f}%, to {{ visibility: hidden }} }}
path {{ visibility: hidden; animation: shown {seconds:.3f}s steps(1) infinite }}
path:first-of-type {{ visibility: visible }}
@media (prefers-reduced-motion: reduce) {{ path {{ animation: none }} }}
</style>
<rect width="1024" height="788"/>
<g fill="none" stroke="#fff" stroke-width="2" stroke-linecap="round">
"""


def times_of(out):
    with open(os.path.join(out, 'judge.log')) as log:
        return [float(line.split()[1]) for line in log if line.startswith('picture ')]


def chosen(times, begin, end):
    """The numbers of the pictures that stand on the screen at each twelfth of a second."""
    count = int((end - begin) * RATE)
    moments = [begin + number / RATE for number in range(count)]
    return [max(number for number, time in enumerate(times) if time <= moment)
            for moment in moments]


def path_of(memory, rom):
    """The strokes of a memory as a path, in whole units, with y downwards."""
    said = subprocess.run([DVG, 'picture'], input=memory + rom, stdout=subprocess.PIPE, check=True)
    steps, at = [], None
    for line in said.stdout.decode().splitlines()[1:]:
        x0, y0, x1, y1 = ((int(place) + 256) // 512 for place in line.split()[:4])
        if abs(x1 - x0) > 1024 or abs(y1 - y0) > 1024:
            continue                    # it goes round the edge of all places
        if (x0, y0) != at:
            steps.append('M%d %d' % (x0, BOTTOM + HIGH - y0))
        steps.append('l%d %d' % (x1 - x0, y0 - y1))
        at = (x1, y1)
    return ''.join(steps)


def main():
    signal.signal(signal.SIGPIPE, signal.SIG_DFL)
    out, rom_path, begin, end = sys.argv[1], sys.argv[2], float(sys.argv[3]), float(sys.argv[4])
    with open(os.path.join(out, 'pictures'), 'rb') as file:
        memories = file.read()
    with open(rom_path, 'rb') as file:
        rom = file.read()
    times = times_of(out)
    if not times:
        sys.exit('film: no picture was drawn')
    begin = max(begin, times[0])
    if begin + 1 / RATE > end:
        sys.exit('film: no picture came before second %g; the first one came at %.2f'
                 % (end, begin))
    numbers = chosen(times, begin, end)
    print(HEAD.format(percent=100 / len(numbers), seconds=len(numbers) / RATE), end='')
    for place, number in enumerate(numbers):
        path = path_of(memories[number * RAM:(number + 1) * RAM], rom)
        print('<path d="%s" style="animation-delay: %.3fs"/>' % (path, place / RATE))
    print('</g>\n</svg>')


main()
