"""What a run of a script shows, without any pipe: the stages are run one after another by the system's utilities, in planned order, each on
whole files. And whether a run of the program shows the same, or may stall."""
import os
import re
import subprocess
import tempfile

from . import plans
from .program import PROGRAM

STAGES = 6
CAPACITIES, BLOCKS = [1, 2, 5, 16], [1, 2, 7, 4096]
# How many items a pipe may grow to hold where no word says so.
GREATEST = 4096
# A standard input of more bytes comes in pieces of any size.
AT_ONCE = 4096

# The files that each run finds. The name y is that of no file, and - is one behind `<` and `>`.
FILES = {
    'a': b'b a\nabab\n\n\tab and  a b\nzz\n',
    'b': b'a\na\nb 1\nb 2\n  b 2\nc\nc\n\n\na',
    'in': ''.join(f'{k}\t{k * k}\n' for k in range(60)).encode(),
    'x': b'',
    '-': b'no last newline',
}
STANDARD_INPUT = b'one, two\nthree\nthree\nab\n'


def content(dice):
    """What a file holds: words of few letters, so that lines are often equal, and sometimes long ones."""
    letters = dice.one_of(['ab\n', 'ab \n', 'ab \t\n\n', 'a:b,\n', 'ab12 \t\n', 'a\n'])
    length = dice.one_of([0, 1, 2, 7, 40, 300, 300, 5000, 70000])
    block = ''.join(dice.one_of(letters) for _ in range(min(length, 997)))
    return (block * (length // 997 + 1))[:length].encode()


# ---- the sequential answer

class Answer:
    """What a run shows: its exit status, the lines that it writes to the standard error, its standard output and its files."""

    def __init__(self, status, lines, output, files):
        self.status, self.lines, self.output, self.files = status, lines, output, files


def is_missing(place):
    """Whether there is no such file."""
    return place[0] == 'file' and place[1] not in FILES


def run_utility(words, given, named):
    """What a utility of the system writes, from its standard input and from files with these names."""
    with tempfile.TemporaryDirectory() as folder:
        for name, content in named.items():
            with open(os.path.join(folder, name), 'wb') as file:
                file.write(content)
        how = {'cwd': folder, 'env': {**os.environ, 'LC_ALL': 'C'}, 'stderr': subprocess.DEVNULL, 'timeout': 60}
        return subprocess.run(words, input=given, stdout=subprocess.PIPE, check=False, **how).stdout


def whole_answer(stage, inputs):
    """What a stage writes to each of its branches. Its inputs are whole, by their names; a missing one is None."""
    given = inputs.get('-', b'')
    named = {name: content for name, content in inputs.items() if name != '-' and content is not None}
    options = stage.words[1:len(stage.words) - len(stage.operands)]
    if stage.utility == 'tee':
        return given
    # One missing operand is enough, where the utility does not go from one to the next.
    if None in inputs.values() and (stage.utility in ('tail', 'uniq') or (stage.utility == 'paste' and '-s' not in options)):
        return b''
    words = stage.words[:-1] if stage.utility == 'uniq' and len(stage.operands) == 2 else stage.words
    written = run_utility(words, given, named)
    # The system's uniq and wc write more blanks than the standard has, and its head has another name for the standard input.
    if stage.utility == 'uniq' and '-c' in options:
        written = re.sub(rb'(?m)^ *(\d+) ', rb'\1 ', written)
    elif stage.utility == 'wc':
        written = re.sub(rb'(?m)^ ', b'', re.sub(rb' +', b' ', written))
    elif stage.utility == 'head':
        written = written.replace(b'==> standard input <==', b'==> - <==')
    return written


def refused_opening(fifos, stages):
    """The line that names the first redirected input that is no file, if there is one."""
    for stage in stages:
        if stage.source is not None and is_missing(plans.place_of(fifos, stage.source, False)):
            return [f'plrun: O1 InputNotOpened: {stage.source}']
    return None


def run_stages(fifos, stages, order):
    """What is written to each place once the stages have run in this order: the writer of a pipe comes before its reader. And how
    many bytes go through a pipe at most."""
    held = {('run',): STANDARD_INPUT, **{('file', name, False): content for name, content in FILES.items()}}
    written, most = {}, 0
    for stage in (stages[number - 1] for number in order):
        places = plans.inputs_of(fifos, stage)
        inputs = {name: None if is_missing(place) else held.get(place, b'')
                  for name, place in zip(plans.input_names(stage), places)}
        answer = whole_answer(stage, inputs)
        most = max(most, len(answer), *(len(content or b'') for content in inputs.values()))
        for place in plans.branches_of(fifos, stage):
            (held if place[0] in ('fifo', 'bar') else written)[place] = answer
    return written, most


def files_after(fifos, stages, written):
    """The files once all outputs were opened, and this was written to them."""
    opened = [plans.place_of(fifos, stage.target, stage.appends) for stage in stages if stage.target is not None]
    files = dict(FILES)
    for place in opened + list(written):
        if place[0] == 'file':
            kept = FILES.get(place[1], b'') if place[2] else b''
            files[place[1]] = kept + written.get(place, b'')
    return files


def expected(text, printed):
    """What a run of a legal script shows, whose plan is printed so; what it shows as soon as its files are open; and how many bytes go
    through a pipe at most."""
    fifos, stages = plans.read_script(text)
    for stage in stages:
        assert plans.read_words(stage) is None
    refused = refused_opening(fifos, stages)
    if refused:
        return (Answer(2, refused, b'', dict(FILES)),) * 2 + (0,)
    order = [int(line.split()[2]) for line in printed.splitlines() if line.split()[1] == 'stage']
    missing = [(stage.number, name) for stage in stages for name in stage.inputs
               if name != '-' and is_missing(plans.place_of(fifos, name, False))]
    lines = [f'plrun: stage {number}: cannot open {name}' for number, name in missing]
    last = stages[-1]
    status = int(any(number == last.number for number, _ in missing) != last.is_negated)
    written, most = run_stages(fifos, stages, order)
    done = Answer(status, lines, written.get(('run',), b''), files_after(fifos, stages, written))
    return done, Answer(3, lines, b'', files_after(fifos, stages, dict.fromkeys(written, b''))), most


# ---- the runs

def run(text, given, before=()):
    """What the program shows, in a new folder that has the files. It is run by these other words, if any."""
    with tempfile.TemporaryDirectory() as folder:
        for name, content in FILES.items():
            with open(os.path.join(folder, name), 'wb') as file:
                file.write(content)
        words = [*before, PROGRAM, *given, '-c', text]
        done = subprocess.run(words, cwd=folder, input=STANDARD_INPUT, capture_output=True, timeout=60, check=False)
        files = {}
        for name in os.listdir(folder):
            with open(os.path.join(folder, name), 'rb') as file:
                files[name] = file.read()
        return Answer(done.returncode, done.stderr.decode(errors='replace').splitlines(), done.stdout, files)


def are_waits(lines, printed):
    """Whether these lines say that it has stalled, and each node that waits has that pipe: a full one that it writes, or an
    empty one that it reads; and one of them is full. Then they name a circle."""
    ends = [re.fullmatch(r'pipe \d+: (\d+) -> (\d+)', line) for line in printed.splitlines()]
    ends = [found.groups() for found in ends if found]
    waits = [re.fullmatch(r'plrun: node (\d+) waits for pipe (\d+): (full|empty)', line) for line in lines[1:-1]]
    if len(lines) < 3 or lines[0] != 'plrun: stalled' or None in waits:
        return False
    circle = re.fullmatch(r'plrun: circle((?: \d+)+)', lines[-1])
    if not circle:
        return False
    nodes = [int(wait[1]) for wait in waits]
    own = all(int(wait[2]) < len(ends) and ends[int(wait[2])][wait[3] == 'empty'] == wait[1] for wait in waits)
    return own and nodes == sorted(set(nodes)) and any(wait[3] == 'full' for wait in waits) and is_circle(circle[1].split(), waits, ends)


def is_circle(nodes, waits, ends):
    """Whether these nodes wait for one another in a circle: the one that following from the lowest node that waits comes to."""
    other = {wait[1]: ends[int(wait[2])][wait[3] == 'full'] for wait in waits}
    rounds = all(other.get(node) == after for node, after in zip(nodes, nodes[1:] + nodes[:1]))
    reached = waits[0][1]
    for _ in waits:
        reached = other.get(reached)
    return rounds and len(nodes) == len(set(nodes)) > 1 and nodes[0] == min(nodes, key=int) and reached in nodes


def number(given, word, other):
    """The number behind this word, or another one, where the word is not given."""
    return int(given[given.index(word) + 1]) if word in given else other


def may_stall(given, printed, most):
    """Whether a run with these words may stall, if at most this number of bytes goes through a pipe. It may not if its graph is a forest,
    or if each pipe may grow to hold all that goes through it, a byte in each piece, and the mark of the end."""
    holds_all = number(given, '--max-capacity', GREATEST) > most and number(given, '--bytes', most) >= most
    return printed.endswith('forest no\n') and not holds_all


def has_stalled(shown, done, start, printed):
    """Whether it says that it has stalled, and each output has a prefix of what it should have."""
    return (
        shown.status == 3
        and shown.lines[:len(start.lines)] == start.lines and are_waits(shown.lines[len(start.lines):], printed)
        and done.output.startswith(shown.output) and shown.files.keys() == done.files.keys()
        and all(done.files[name].startswith(content) and content.startswith(start.files[name])
                for name, content in shown.files.items())
    )


def ending(shown, printed, answers, may):
    """How a run ended that may stall or not; None where it shows anything else than what is expected of it."""
    done, start, _ = answers
    if vars(shown) == vars(done):
        return 'an input not opened' if done.status == 2 else 'finished'
    return 'stalled' if may and has_stalled(shown, done, start, printed) else None


def without_growth(given):
    """The same words, where each pipe holds from the start what it may grow to hold. None where it does already."""
    words = list(given)
    words[words.index('--capacity') + 1] = str(number(given, '--max-capacity', GREATEST))
    return None if words == given else words


def compare(name, text, printed, settings, counts):
    """Runs a script with these settings, and counts how it ended. The answer is how many runs differ; they are then shown."""
    answers = expected(text, printed)
    differ = 0
    for given in settings:
        shown, may = run(text, given), may_stall(given, printed, answers[2])
        how = ending(shown, printed, answers, may)
        counts.update([how] if how else [])
        counts.update([f'finished with status {shown.status}'] if how == 'finished' else [])
        wrong = '' if how else f'expected {vars(answers[0])}' + (', or a stall' if may else '')
        fixed = without_growth(given) if how and may and len(STANDARD_INPUT) <= AT_ONCE else None
        if fixed:
            counts['compared with a run without growth'] += 1
            other = run(text, fixed)
            wrong = '' if vars(other) == vars(shown) else f'{" ".join(fixed)} answered {vars(other)}'
        if wrong:
            differ += 1
            print(f'DIFFERS {name}, {" ".join(given)}: {text}\n  {wrong}\n  answered {vars(shown)}')
    return differ


def limit(dice, block):
    """Words that give a pipe a limit in bytes, from the block on; or none, which leave the program's own."""
    if dice.chance(50):
        return []
    return ['--bytes', str(dice.one_of([block, block, block + 1, block + dice.below(block), 2 * block, 3 * block, 10 * block]))]


def growth(dice, capacity):
    """Words that say to how many items a pipe may grow, from the capacity on; or none, which leave the program's own."""
    if dice.chance(50):
        return []
    greatest = dice.one_of([capacity, capacity, capacity, capacity + 1, 2 * capacity, 3 * capacity, capacity + dice.below(200)])
    return ['--max-capacity', str(min(greatest, GREATEST))]


def sized(given, capacity, block, dice):
    """These words, with a capacity, a block, perhaps a limit in bytes and perhaps one of growth, if they have none."""
    sizes = {'--capacity': str(min(capacity, number(given, '--max-capacity', capacity))), '--block': str(block)}
    words = [word for name, size in sizes.items() if name not in given for word in (name, size)] + given
    if '--bytes' not in given:
        words += limit(dice, number(words, '--block', None))
    return words if '--max-capacity' in given else words + growth(dice, number(words, '--capacity', None))


def legal_scripts(seed):
    """Scripts, each with its printed plan."""
    dice = plans.Dice(seed)
    while True:
        text = plans.make_script(dice)
        printed, fault = plans.plan(text)
        if fault is None and len(plans.read_script(text)[1]) <= STAGES and ('forest no' in printed or dice.chance(15)):
            yield text, printed


def appends_to_file(fifos, stage):
    """Whether a branch of a stage is written behind what a file holds."""
    plans.read_words(stage)
    return any(place[0] == 'file' and place[2] and place[1] in FILES for place in plans.branches_of(fifos, stage))
