"""Runs of tail over regular files, next to the system's tail: where the end begins, and what is read of it."""
import os
import subprocess
import tempfile
from collections import Counter

from . import plans
from .program import PROGRAM

SIZES = [0, 1, 2, 7, 300, 4096, 65535, 65536, 65537, 131071, 131073, 300_000]
LINES = [1, 2, 3, 60, 5000, 400_000]
# The file is f. With the last text it is the standard input, after some of its bytes were read.
SCRIPTS = ['tail {} f', 'tail {} < f', 'cat f | tail {}', 'tail {} f | tee one', 'tail {} f > one', 'tail {} f | tail -n 2', 'tail {} f | cut -b 1-9',
           'mkfifo p; tail {} f > p & paste p f', 'tail {}']


def content(dice):
    """What a file holds: lines of any bytes, some of them long, and perhaps no last newline."""
    size, longest, held = dice.one_of(SIZES), dice.one_of(LINES), b''
    while len(held) < size:
        held += bytes([dice.one_of(b'ab \0\r\xff')]) * dice.below(longest) + b'\n' * (1 + dice.below(2))
    return held[:size]


def number_of(dice, held):
    """The words of an option of tail: how many lines, or bytes, near what the file has."""
    lines = held.count(b'\n') + (held != b'' and not held.endswith(b'\n'))
    letter, most = dice.one_of([('-n', lines), ('-c', len(held))])
    sign = '+' if dice.chance(15) else ''
    # The system's tail fails after a move that is too far for a file.
    counts = [0, 1, 2, 3, most - 1, most, most + 1, dice.below(most + 1), 2**31 if sign else 2**63 - 1]
    return f'{letter} {sign}{max(0, dice.one_of(counts))}'


def shown_by(words, held, before):
    """What a program shows that finds the file f, with the rest of it as its standard input."""
    with tempfile.TemporaryDirectory() as folder:
        path = os.path.join(folder, 'f')
        with open(path, 'wb') as file:
            file.write(held)
        with open(path, 'rb') as given:
            given.seek(before)
            done = subprocess.run(words, cwd=folder, stdin=given, capture_output=True, timeout=60, check=False, env={**os.environ, 'LC_ALL': 'C'})
        files = {}
        for name in set(os.listdir(folder)) - {'p'}:
            with open(os.path.join(folder, name), 'rb') as file:
                files[name] = file.read()
        return done.returncode, done.stdout, files


def try_tail(number):
    """Tries tail of a file that this number makes: how the run ended, and whether it differs."""
    dice = plans.Dice(number * 2 + 3_000_017)
    held = content(dice)
    script = dice.one_of(SCRIPTS)
    text = script.format(number_of(dice, held))
    before = dice.below(len(held) + 1) if script == 'tail {}' else 0
    words = ['--workers', str(1 + dice.below(4)), '--block', str(dice.one_of([1, 7, 4096, 65536]) if len(held) < 5000 else 65536)]
    expected = shown_by(['sh', '-c', text], held, before)
    shown = shown_by([PROGRAM, *words, '-c', text], held, before)
    if shown == expected:
        return Counter(['tail of a file, finished']), 0
    print(f'DIFFERS number {number}, {" ".join(words)}, from byte {before} of {len(held)}: {text}\n'
          f'  status {shown[0]} for {expected[0]}, {len(shown[1])} bytes for {len(expected[1])}', flush=True)
    return Counter(), 1
