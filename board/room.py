"""Says how many bytes a program takes of its ROMs:

    room.py MAP ROM

MAP is the map of ld65, and ROM has the bytes of the vector ROM, of which the words after the last
shape are returns. The last shape counts with one of them, also if it ends in another way. Status 1
where MAP is missing or has no segment of a ROM.
"""
import re
import signal
import sys

PROGRAM = 'CODE', 'DATA', 'VECTORS'
RETURN = b'\0\xd0'


def sizes_of(path):
    """The bytes of each segment, of the list of segments of ld65's map."""
    with open(path) as file:
        text = file.read()
    listed = text.partition('Segment list:')[2].partition('Exports')[0]
    return {name: int(size, 16) for name, size in
            re.findall(r'^(\w+) +[0-9A-F]{6} +[0-9A-F]{6} +([0-9A-F]{6}) ', listed, re.MULTILINE)}


def bytes_of_shapes(rom):
    end = len(rom)
    while rom[end - 2:end] == RETURN:
        end -= 2
    return min(end + 2, len(rom)) if end else 0


def main():
    signal.signal(signal.SIGPIPE, signal.SIG_DFL)
    try:
        sizes = sizes_of(sys.argv[1])
    except OSError as fault:
        sys.exit('room.py: %s: make clean, and make' % fault)
    if 'CODE' not in sizes:
        sys.exit('room.py: %s has no segment CODE' % sys.argv[1])
    with open(sys.argv[2], 'rb') as file:
        rom = file.read()
    program = sum(sizes.get(name, 0) for name in PROGRAM)
    told = ['{:,} of 6,144 bytes of program'.format(program)]
    if 'LOW' in sizes:
        told.append('{:,} of 2,048 of its segment LOW'.format(sizes['LOW']))
    told.append('{:,} of {:,} of shapes'.format(bytes_of_shapes(rom), len(rom)))
    print(', '.join(told))


main()
