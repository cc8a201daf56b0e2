"""Runs next to other programs at random: coprocesses, and outputs whose readers come late, read slowly, or wait for another output."""
import os
import subprocess
import tempfile
from collections import Counter

from .plans import Dice
from .program import PROGRAM

SECONDS = 60
# Commands that read all of their input, and write the same as the system's utilities do.
COMMANDS = ['cat', 'tr a-z A-Z', 'tr -d a', 'tr -s b', 'cut -c 1-3', "cut -d ' ' -f 2-", 'uniq', 'uniq -d', 'fold -w 5', 'fold -s -w 9', 'tail -n 5',
            'tail -n +3', 'paste - -', 'paste -s -d , -']
# How the reader of an output goes on. `$1` is its FIFO, `$2` what it makes, and `$3` and `$4` are another output and what that is to hold.
READERS = {
    'at once': 'cat < "$1" > "$2"',
    'late': 'sleep 0.1; cat < "$1" > "$2"',
    'slow': '{ dd bs=700 count=1; sleep 0.05; dd bs=700 count=1; sleep 0.05; cat; } < "$1" > "$2" 2> /dev/null',
    'after another output': 'exec < "$1"; until cmp -s "$3" "$4"; do sleep 0.01; done; cat > "$2"',
}


def content(dice):
    """What a file holds: lines of few letters, less or more than the pipes between two programs hold."""
    letters = dice.one_of(['ab\n', 'a b\n\n', 'ab \t\n', 'aAbB1 \n'])
    length = dice.one_of([0, 1, 40, 3000, 70000, 300000])
    block = ''.join(dice.one_of(letters) for _ in range(min(length, 997)))
    return (block * (length // 997 + 1))[:length].encode()


def chain(dice):
    """One to three commands, as the text of a pipeline."""
    return [dice.one_of(COMMANDS) for _ in range(1 + dice.below(3))]


def piped(commands, given, to):
    """A pipeline of these commands, from one file to another."""
    return ' | '.join([f'{commands[0]} < {given}', *commands[1:]]) + f' > {to}'


def words_of(dice, size):
    """Settings, with no blocks so small that a run would take long."""
    block = dice.one_of([64, 700, 4096, 65536] if size > 3000 else [1, 7, 64, 4096])
    return ['--workers', str(1 + dice.below(8)), '--capacity', str(dice.one_of([1, 2, 16])), '--block', str(block)]


def whole(commands, given):
    """What sh writes."""
    how = {'input': given, 'stdout': subprocess.PIPE, 'env': {**os.environ, 'LC_ALL': 'C'}, 'timeout': SECONDS, 'check': True}
    return subprocess.run(['sh', '-c', ' | '.join(commands)], **how).stdout


class Case:
    """A run next to another program: its script, that program, and what the files are to hold in the end."""

    def __init__(self, number):
        dice = Dice(number * 2 + 7_000_001)
        self.held, first, second, self.between = content(dice), chain(dice), chain(dice), chain(dice)
        self.words, self.way = words_of(dice, len(self.held)), dice.one_of(['coprocess', *READERS])
        self.written = whole(first, self.held)
        self.other = whole(second, whole(self.between, self.written) if self.way == 'coprocess' else self.held)
        self.script = f'{piped(first, "in", "f1")} & {piped(second, "f2" if self.way == "coprocess" else "in", "out")}'

    def reader(self):
        """The words of the other program."""
        if self.way == 'coprocess':
            return ['sh', '-c', piped(self.between, 'f1', 'f2')]
        return ['sh', '-c', READERS[self.way], 'sh', 'f1', 'read', 'out', 'whole']

    def expected(self):
        """What the files are to hold."""
        return {'out': self.other} if self.way == 'coprocess' else {'out': self.other, 'read': self.written}

    def run(self):
        """What differs, or nothing."""
        with tempfile.TemporaryDirectory() as folder:
            for name, held in (('in', self.held), ('whole', self.other)):
                with open(os.path.join(folder, name), 'wb') as file:
                    file.write(held)
            for name in ('f1', 'f2'):
                os.mkfifo(os.path.join(folder, name))
            how = {'cwd': folder, 'stdin': subprocess.DEVNULL, 'env': {**os.environ, 'LC_ALL': 'C'}}
            reader = subprocess.Popen(['timeout', str(SECONDS), *self.reader()], **how)
            try:
                done = subprocess.run([PROGRAM, *self.words, '-c', self.script], capture_output=True, timeout=SECONDS, check=False, **how)
                reader.wait(SECONDS)
            except subprocess.TimeoutExpired:
                return f'no end in {SECONDS} s'
            finally:
                reader.terminate()
                reader.wait()
            if (done.returncode, done.stdout, done.stderr) != (0, b'', b''):
                return f'status {done.returncode}, {done.stderr[:200]!r}'
            for name, held in self.expected().items():
                with open(os.path.join(folder, name), 'rb') as file:
                    if file.read() != held:
                        return f'{name} differs'
        return ''


def try_beside(number):
    """Tries the run of a number: how it ended, and whether it differs."""
    case = Case(number)
    wrong = case.run()
    if wrong:
        print(f'DIFFERS number {number}, {" ".join(case.words)}, {case.way}, {" | ".join(case.between)}: {case.script}: {wrong}', flush=True)
        return Counter(), 1
    return Counter([f'next to another program, {case.way}']), 0
