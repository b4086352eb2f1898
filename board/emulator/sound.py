"""Says of each second of what the arcade emulator wrote by -wavwrite whether anything is heard:

    sound.py WAV

Heard is what goes up and down by more than a 500th of the whole range: a sound that is off may
leave a level, which is still. Where a script ends the emulator, the sizes in the head of WAV are
0: they are mended. Which sounds are on at the end stands in `sounding` beside WAV (press.lua).
Status 1 where WAV can't be read.
"""
import array
import os
import signal
import struct
import sys

HEAD, LEAST = 44, 65536 // 500


def mend(path):
    """Writes the sizes. Returns how many channels there are, and samples of each in a second."""
    with open(path, 'r+b') as file:
        head = file.read(HEAD)
        if len(head) < HEAD or head[:4] + head[8:12] + head[36:40] != b'RIFFWAVEdata':
            raise ValueError('no WAV of 16 bits')
        size = os.path.getsize(path) - HEAD
        file.seek(4)
        file.write(struct.pack('<I', size + HEAD - 8))
        file.seek(HEAD - 4)
        file.write(struct.pack('<I', size))
    channels, rate = struct.unpack('<HI', head[22:28])
    if not channels or not rate or head[34:36] != b'\x10\0':
        raise ValueError('no WAV of 16 bits')
    return channels, rate


def heights(path):
    """How far the samples of each second lie apart, of the channel where they do most."""
    channels, rate = mend(path)
    found = []
    with open(path, 'rb') as file:
        file.seek(HEAD)
        while True:
            data = file.read(2 * channels * rate)
            samples = array.array('h', data[:len(data) - len(data) % (2 * channels)])
            if not samples:
                return found
            if sys.byteorder == 'big':
                samples.byteswap()
            parts = [samples[channel::channels] for channel in range(channels)]
            found.append(max(max(part) - min(part) for part in parts))


def tell_sounding(path):
    """Which sounds are on at the end, if that was looked at."""
    if os.path.exists(path):
        with open(path, encoding='utf-8') as file:
            for line in file:
                print('on at the end: ' + line.strip())


def main():
    signal.signal(signal.SIGPIPE, signal.SIG_DFL)
    try:
        found = heights(sys.argv[1])
    except (OSError, ValueError) as fault:
        print('sound.py: %s: %s' % (sys.argv[1], fault), file=sys.stderr)
        sys.exit(1)
    for second, height in enumerate(found):
        text = 'heard, %d of 100' % max(1, height * 100 // 65536) if height > LEAST else 'nothing'
        print('second %d: %s' % (second, text))
    tell_sounding(os.path.join(os.path.dirname(sys.argv[1]), 'sounding'))
    count = sum(height > LEAST for height in found)
    print('%s: something is heard in %d of %d seconds' % (sys.argv[1], count, len(found)))


main()
