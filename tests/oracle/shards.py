"""Scripts over an input in parts: what `plrun --shards` says of them, and runs of what it says; and inputs, parts and pipelines at random."""
import json
import os
import re
import shutil
import subprocess
import tempfile
from collections import Counter

from .plans import Dice
from .program import PROGRAM

# The names that a script may have for its input and its output here. None of them has a folder.
NAME = re.compile(r'^[A-Za-z0-9._-]+$')
SOON = {'timeout': 60, 'check': False}


class Told:
    """What is said of a script: what runs on each part and on the joined outputs, and the files that the whole reads and writes."""

    def __init__(self, told, reads, writes):
        self.map, self.combine, self.reads, self.writes = told['map'], told['combine'], reads, writes


def opened(plan, kind):
    """The only name that a plan opens as a source or as a sink: empty for a standard stream, None if there are more, or if it is appended."""
    names = re.findall(rf'^\d+ {kind} (.*)$', plan, re.MULTILINE)
    if len(names) != 1:
        return None
    if names[0] in ('standard input', 'standard output'):
        return ''
    return names[0] if NAME.match(names[0]) else None


def shards_of(script):
    """What is said of a script, or None if it is refused. A refusal that is no line of its own kind is an error."""
    words = [PROGRAM, '--hints=never', '--shards=json', '-c', script.encode('latin-1')]
    told = subprocess.run(words, stdin=subprocess.DEVNULL, capture_output=True, **SOON)
    if told.returncode == 2:
        if told.stdout or not re.match(rb'^plrun: [XAPD]\d+ .*\n$', told.stderr):
            raise AssertionError(f'{script!r}: refused with {told.stdout!r} and {told.stderr!r}')
        return None
    if told.returncode != 0 or told.stderr:
        raise AssertionError(f'{script!r}: status {told.returncode}, {told.stderr!r}')
    plan = subprocess.run([PROGRAM, '--plan', '-c', script.encode('latin-1')], stdin=subprocess.DEVNULL, capture_output=True, **SOON)
    plan = plan.stdout.decode('latin-1')
    reads, writes = opened(plan, 'source'), opened(plan, 'sink')
    if reads is None or writes is None:
        return None
    return Told(json.loads(told.stdout), reads, writes)


def unescaped(text):
    """The bytes of a text in the escapes of printf."""
    return text.encode('latin-1').decode('unicode_escape').encode('latin-1')


def case_of(kind, row):
    """The script of a row of a table, and its own standard input if it has one; None if it is no row."""
    if not row or row.startswith('#'):
        return None
    parts = row.split(' :: ')
    if kind == 'given':
        given = unescaped(parts[0].split(' | ')[0])
        return parts[2], given
    return parts[2].replace('¶'.encode().decode('latin-1'), '\n'), None


# ---- inputs and their parts

def content(dice):
    """An input of few letters, so that lines are often equal; its last line may have no newline."""
    letters = dice.one_of(['ab\n', 'a\n', 'a b\n\n', 'ab \t\n', 'a:b\n', 'aAbB1 \n'])
    return ''.join(dice.one_of(letters) for _ in range(dice.one_of([0, 1, 2, 9, 40, 200, 900]))).encode()


def parts(dice, whole, count):
    """An input in so many parts, each cut at the end of a line, or at the beginning or the end of all. Some may be empty, as those after the end."""
    ends = [0, len(whole)] + [place + 1 for place, byte in enumerate(whole) if byte == 10]
    cuts = [0] + sorted(dice.one_of(ends) for _ in range(count - 1)) + [len(whole)]
    return [whole[start:end] for start, end in zip(cuts, cuts[1:])]


# ---- runs

def written(folder, told, words, given, named):
    """What a command writes in a new folder that has these files: to its standard output, or to the file that the script writes."""
    room = os.path.join(folder, 'room')
    os.mkdir(room)
    for name, held in named.items():
        with open(os.path.join(room, name), 'wb') as file:
            file.write(held)
    done = subprocess.run(words, input=given, cwd=room, env={**os.environ, 'LC_ALL': 'C'}, capture_output=True, **SOON)
    output = done.stdout
    if told is not None and told.writes:
        with open(os.path.join(room, told.writes), 'rb') as file:
            output = (output, file.read())
    shutil.rmtree(room)
    return done.returncode, done.stderr, output


def whole(folder, told, script, held, by_sh=True):
    """The result of a script over a whole input, by sh or by plrun."""
    words = ['sh' if by_sh else PROGRAM, '-c', script.encode('latin-1')]
    named = {told.reads: held} if told.reads else {}
    return written(folder, told, words, b'' if told.reads else held, named)


def in_parts(folder, told, given):
    """What the script for the joined outputs writes of what the script for each part writes of these parts."""
    joined = b''
    for part in given:
        status, said, output = written(folder, None, [PROGRAM, '-c', told.map.encode('latin-1')], part, {})
        if status != 0 or said:
            return status, said, output
        joined += output
    return written(folder, told, [PROGRAM, '-c', told.combine.encode('latin-1')], joined, {})


# ---- pipelines

COMMANDS = ['cat', 'tee', 'cat -u', 'tr a b', 'tr ab bA', "tr ' ' '\\n'", "tr '\\n' ' '", "tr -d '\\n'", 'tr -d a', 'tr -s a', "tr -s ' '",
            "tr -s 'ab' ' '", "tr -s '\\n'", "tr -cs 'ab' '[\\n*]'", 'tr -ds b a', 'cut -c 2-', 'cut -b 1,3', "cut -d ' ' -f 2", 'cut -d a -sf 1-2',
            'cut -d : -f 2-', 'fold -w 3', 'fold -s -w 4', 'fold -b -w 1', 'head -n 3', 'head -n 0', 'head', 'tail -n 2', 'tail -n 0', 'tail',
            'tail -c 5', 'tail -c 0', 'uniq', 'uniq -f 1', 'uniq -s 1', 'uniq -f 1 -s 1', 'tail -n +2', 'uniq -d', 'uniq -u', 'paste - -',
            "paste -s -d ','", 'wc -l', 'wc -w', 'wc -c', "tr -s '\\n' ' '", "tr -cs 'b' 'a'", 'tail -n +3', 'uniq | head -n 2',
            'uniq -s 1 | head -n 1', 'tail -n +2 | cut -c 2-', "tail -n +2 | wc -l"]


def pipeline(dice):
    """A pipeline of commands at random."""
    return ' | '.join(dice.one_of(COMMANDS) for _ in range(1 + dice.below(5)))


def try_pipeline(number):
    """Tries the pipeline of a number in parts: how it went, and whether it differs."""
    dice = Dice(number * 2 + 2_000_003)
    script = pipeline(dice)
    told = shards_of(script)
    if told is None:
        return Counter(['in parts, refused']), 0
    held = content(dice)
    given = parts(dice, held, 1 + dice.below(9))
    with tempfile.TemporaryDirectory() as folder:
        expected, shown = whole(folder, told, script, held), in_parts(folder, told, given)
    if shown == expected:
        return Counter(['in parts, the same']), 0
    print(f'DIFFERS number {number}, in parts {given}: {script}\n  map {told.map}\n  combine {told.combine}\n'
          f'  expected {expected}\n  answered {shown}', flush=True)
    return Counter(), 1
