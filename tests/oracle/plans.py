"""How a script is planned: what the words of each command mean, which places read and write, what a pipe joins, the first fault, the
planned order, the numbers of nodes and pipes, and whether the plan is a forest. And scripts of a pseudo-random grammar."""
import getopt
import re
import unicodedata

FAULTS = ['P1 FifoTwice', 'P2 ManyWriters', 'P3 ManyReaders', 'P4 NoReader', 'P5 NoWriter', 'P6 Cycle', 'P7 OutputTwice',
          'P8 ReadAndWritten', 'P9 LastOutputIsFifo', 'P10 AsyncToStdout', 'P11 TooMany']
# The characters that turn the direction of text.
TURNING = '\u061c\u200e\u200f\u202a\u202b\u202c\u202d\u202e\u2066\u2067\u2068\u2069'


# ---- the script: words without quotes, in which the grammar finds no fault

class Stage:
    """A command where it stands. Stages are numbered from 1 over all pipelines."""

    def __init__(self, number, tokens, is_background, is_first, is_last):
        self.number, self.is_background, self.is_first, self.is_last = number, is_background, is_first, is_last
        self.words, self.source, self.target, self.appends, self.is_negated = [], None, None, False, False
        tokens = iter(tokens)
        for token in tokens:
            if token == '<':
                self.source = next(tokens)
            elif token in ('>', '>>', '>|'):
                self.target, self.appends = next(tokens), token == '>>'
            else:
                self.words.append(token)


def read_script(text):
    """The names of its FIFOs, and its stages."""
    fifos, stages = [], []
    text = re.sub(r'([;&|\n])[ \n]+', r'\1 ', text).strip(' \n;')
    for line, end in re.findall(r'([^;&\n]+)([;&\n]?)', text):
        commands = [re.findall(r'>>|>\||<|>|[^ <>|]+', command) for command in re.split(r'(?<!>)\|', line)]
        if commands[0][0] == 'mkfifo' and not stages:
            fifos += commands[0][1:]
            continue
        is_negated = commands[0][0] == '!'
        if is_negated:
            del commands[0][0]
        for k, tokens in enumerate(commands):
            stages.append(Stage(len(stages) + 1, tokens, end == '&', k == 0, k == len(commands) - 1))
            stages[-1].is_negated = is_negated
    return fifos, stages


# ---- the words of a command

OPTIONS = {'cat': 'u', 'tr': 'cCds', 'cut': 'b:c:f:d:ns', 'head': 'n:', 'tail': 'n:c:', 'uniq': 'cduf:s:', 'paste': 'd:s',
           'fold': 'bsw:', 'wc': 'cmlw', 'tee': 'ai'}
# the words of the scripts below that are no number, no list and no set, where one should stand
WRONG = {'fold': {'0': 'A4 BadNumber'}, 'cut': {'3-1': 'A5 BadList'}, 'tr': {'z-a': 'A6 BadSet'}}


def are_apart(utility, given):
    """Whether there are two options that do not stand together."""
    groups = {'cut': ['bcf', 'bd', 'cd', 'bs', 'cs', 'cn', 'fn'], 'tail': ['nc'], 'uniq': ['cdu'], 'wc': ['cm']}
    return any(len(given & set(group)) > 1 for group in groups.get(utility, []))


def are_operands(utility, given, operands):
    """Whether it may have these operands."""
    if utility == 'tr':
        is_one, is_two = len(operands) == 1, len(operands) == 2
        return {'d': is_one, 's': is_one or is_two}.get(''.join(sorted(given & set('ds'))), is_two)
    if utility == 'tee':
        return '-' not in operands
    if utility == 'uniq':
        return len(operands) <= 2
    return utility == 'paste' or (operands.count('-') <= 1 and (utility != 'tail' or len(operands) <= 1))


def read_words(stage):
    """Gives a stage its operands: all, and those that name inputs and outputs. The answer is the fault of its words."""
    utility, *words = stage.words
    stage.utility = utility
    if utility not in OPTIONS:
        return 'A1 UnknownUtility'
    try:
        options, operands = getopt.getopt(words, OPTIONS[utility])
    except getopt.GetoptError as error:
        return 'A3 MissingArgument' if 'requires argument' in error.msg else 'A2 UnknownOption'
    given = {option[1] for option, _ in options}
    if utility == 'cut' and not given & set('bcf'):
        return 'A3 MissingArgument'
    if are_apart(utility, given):
        return 'A7 ExclusiveOptions'
    if not are_operands(utility, given, operands):
        return 'A8 BadOperands'
    for word in [argument for _, argument in options] + (operands if utility == 'tr' else []):
        if utility == 'head' and not word.isdigit():
            return 'A4 BadNumber'
        if word in WRONG.get(utility, {}):
            return WRONG[utility][word]
    stage.operands, stage.operands_append = operands, utility == 'tee' and 'a' in given
    stage.outputs = operands if utility == 'tee' else [name for name in operands[1:] if name != '-'] if utility == 'uniq' else []
    stage.inputs = [] if utility in ('tee', 'tr') else operands[:1] if utility == 'uniq' else operands
    return None


# ---- the places that inputs read and branches write: ('file', name, appends), ('run',) and ('nothing',); and between stages
# ('fifo', name) and ('bar', number of the stage behind the `|`)

def place_of(fifos, name, appends):
    return ('fifo', name) if name in fifos else ('file', name, appends)


def input_names(stage):
    """The names of the inputs that a stage uses. All its `-` are one input, its standard input."""
    names = stage.inputs or ['-']
    return [name for k, name in enumerate(names) if name != '-' or '-' not in names[:k]]


def inputs_of(fifos, stage):
    """What each input that a stage uses reads."""
    if stage.source is not None:
        standard = place_of(fifos, stage.source, False)
    elif not stage.is_first:
        standard = ('bar', stage.number)
    else:
        standard = ('nothing',) if stage.is_background else ('run',)
    return [standard if name == '-' else place_of(fifos, name, False) for name in input_names(stage)]


def branches_of(fifos, stage):
    """What each branch of a stage writes. The first is its main output."""
    if stage.target is not None:
        standard = place_of(fifos, stage.target, stage.appends)
    else:
        standard = ('run',) if stage.is_last else ('bar', stage.number + 1)
    operands = [place_of(fifos, name, stage.operands_append) for name in stage.outputs]
    return operands if stage.utility == 'uniq' and operands else [standard] + operands


def planned_order(numbers, joins):
    """The stages, each time the lowest whose writers stand already; fewer than all where the rest wait for each other."""
    order = []
    while True:
        ready = [s for s in numbers if s not in order and all(writer in order for writer, reader in joins if reader == s)]
        if not ready:
            return order
        order.append(min(ready))


def is_forest(count, pipes):
    """Whether all nodes can be taken away, each when it has at most one pipe to those that are left."""
    left = set(range(count))
    while True:
        bare = next((k for k in left if sum(k in pipe and left.issuperset(pipe) for pipe in pipes) <= 1), None)
        if bare is None:
            return not left
        left.remove(bare)


def plan(text, show=None):
    """What is printed for a script, and its fault: one of them is None. `show` makes what is printed, plan_text without it."""
    return plan_of(*read_script(text), show)


def plan_of(fifos, stages, show=None):
    """The same for these names of FIFOs and these stages."""
    for stage in stages:
        fault = read_words(stage)
        if fault:
            return None, f'{fault} in stage {stage.number}'
    # all inputs that are used and all branches that are written, by stage and number, and each pair of them that a pipe joins
    ins = [(s.number, k, place) for s in stages for k, place in enumerate(inputs_of(fifos, s))]
    outs = [(s.number, k, place) for s in stages for k, place in enumerate(branches_of(fifos, s))]
    pairs = [(o, i) for o in outs for i in ins if o[2] == i[2] and o[2][0] in ('fifo', 'bar')]
    order = planned_order([s.number for s in stages], [(o[0], i[0]) for o, i in pairs])
    sources = [i for i in ins if all(i != other for _, other in pairs)]
    sinks = [o for o in outs if o[2][0] in ('file', 'run')]
    # the names of reading and of writing places, used or not
    reads = [name for s in stages for name in ([] if s.source is None else [s.source]) + [n for n in s.inputs if n != '-']]
    writes = [name for s in stages for name in ([] if s.target is None else [s.target]) + s.outputs]
    files = {name for name in reads + writes if name not in fifos}
    ends = [(s.is_background, branches_of(fifos, s)[0]) for s in stages if s.is_last]
    holds = [
        any(fifos.count(name) > 1 for name in fifos),
        any(writes.count(name) > 1 for name in fifos),
        any(reads.count(name) > 1 for name in fifos),
        any(name not in reads for name in fifos),
        any(name not in writes for name in fifos),
        len(order) < len(stages),
        any(writes.count(name) > 1 for name in files),
        any(name in reads and name in writes for name in files),
        any(not is_background and main[0] == 'fifo' for is_background, main in ends),
        any(is_background and main == ('run',) for is_background, main in ends),
        len(stages) > 256 or len(sources) + len(pairs) + len(sinks) > 1024 or any(len(s.operands) > 32 for s in stages),
    ]
    if any(holds):
        return None, FAULTS[holds.index(True)]
    return (show or plan_text)(stages, *graph_of(order, sources, sinks, pairs)), None


def is_printing(character):
    """Whether it is no control character, separates no lines or paragraphs, and does not turn the direction of text."""
    return unicodedata.category(character) not in ('Cc', 'Cs', 'Zl', 'Zp') and character not in TURNING


def escaped(name):
    """A name as it is printed; a surrogate in it is a byte of no character."""
    shown = ''
    for character in name:
        numbers = character.encode(errors='surrogateescape')
        shown += '\\\\' if character == '\\' else character if is_printing(character) else ''.join(f'\\x{byte:02X}' for byte in numbers)
    return shown


def graph_of(order, sources, sinks, pairs):
    """The nodes in planned order, and the pipes by writer and then by branch: their writer, their reader, and the name of the FIFO or None."""
    nodes = [('source', i) for i in sources] + [('stage', s) for s in order] + [('sink', o) for o in sinks]
    number = {node: k for k, node in enumerate(nodes)}
    pipes = [(number['source', i], 0, number['stage', i[0]], None) for i in sources]
    pipes += [(number['stage', o[0]], o[1], number['stage', i[0]], o[2][1] if o[2][0] == 'fifo' else None) for o, i in pairs]
    pipes += [(number['stage', o[0]], o[1], number['sink', o], None) for o in sinks]
    return nodes, [(writer, reader, fifo) for writer, _, reader, fifo in sorted(pipes, key=lambda pipe: pipe[:3])]


def plan_text(stages, nodes, pipes):
    """The nodes in planned order, the pipes by writer and then by branch, and whether that is a forest."""
    def show(kind, what):
        if kind == 'stage':
            return f'stage {what} {stages[what - 1].utility}'
        place = what[2]
        if place[0] == 'file':
            return f'{kind} {escaped(place[1])}' + (' append' if place[2] else '')
        return f'{kind} standard {"input" if kind == "source" else "output"}' if place[0] == 'run' else 'source empty'

    lines = [f'{k} {show(*node)}' for k, node in enumerate(nodes)]
    lines += [f'pipe {k}: {writer} -> {reader}' for k, (writer, reader, _) in enumerate(pipes)]
    lines.append('forest yes' if is_forest(len(nodes), [pipe[:2] for pipe in pipes]) else 'forest no')
    return ''.join(line + '\n' for line in lines)


# ---- the scripts

class Dice:
    """A linear congruential generator."""

    def __init__(self, seed):
        self.state = seed

    def below(self, n):
        self.state = (self.state * 6364136223846793005 + 1442695040888963407) % 2**64
        return (self.state >> 33) % n

    def chance(self, percent):
        return self.below(100) < percent

    def one_of(self, items):
        return items[self.below(len(items))]


UTILITIES = ['cat', 'cat -u', 'tr a b', 'tr -ds a b', 'cut -f 1', 'cut -nb 2-', 'head', 'head -n 1', 'tail', 'tail -c +2', 'uniq',
             'uniq -c', 'paste', 'paste -s -d ,', 'fold', 'fold -bw 4', 'wc', 'wc -lw', 'tee', 'tee', 'tee -a', 'tee -i --']
MEANINGLESS = ['sort', 'head -5', 'cat -n', 'head -n', 'cut a', 'fold -w 0', 'head -n x', 'cut -f 3-1', 'tr z-a x', 'tr -d z-a',
               'uniq -d -u', 'cut -f 1 -b 2', 'cut -d : -c 1', 'wc -cm', 'cat - -', 'tee -', 'tail a b', 'uniq a b c', 'tr a']
INPUTS = ['a', 'b', 'in', 'x', 'y', '-']
OUTPUTS = ['out', 'o', 'p', 'q', 'r', 's', 't', 'u', 'v']


class Command:
    """Words that grow: the utility with its options, its operands, and what is behind `<` and behind `>`."""

    def __init__(self, dice):
        self.dice, self.source, self.target = dice, '', ''
        self.begin(dice.one_of(UTILITIES))
        if dice.chance(40):
            self.read(dice.one_of(INPUTS))
        if self.utility not in ('tail', 'uniq', 'tee', 'tr') and dice.chance(4):
            self.operands += ['a'] * (30 + dice.below(4))
        if dice.chance(2):
            self.head = dice.one_of(MEANINGLESS)

    def begin(self, head):
        self.head, self.utility, self.operands = head, head.split()[0], []
        if self.utility == 'paste':
            self.operands = ['-'] * self.dice.below(3)

    def read(self, name):
        """Gives it one more name to read. The answer is whether there was a place."""
        at = self.dice.below(len(self.operands) + 1)
        if self.utility in ('tail', 'uniq') and not self.operands and self.dice.chance(65):
            self.operands = [name]
        elif self.utility not in ('tail', 'uniq', 'tee', 'tr') and self.dice.chance(75):
            self.operands.insert(at, name)
        elif not self.source:
            self.source = self.dice.one_of(['< ', '<']) + name
        else:
            return False
        return True

    def write(self, name):
        """Gives it one more name to write. The answer is whether there was a place."""
        if self.utility == 'tee' and self.dice.chance(75):
            self.operands.append(name)
        elif self.utility == 'uniq' and len(self.operands) == 1 and self.dice.chance(65):
            self.operands.append(name)
        elif not self.target:
            self.target = self.dice.one_of(['> ', '>', '>> ', '>|']) + name
        else:
            return False
        return True

    def text(self):
        words = [self.head, *self.operands, self.source, self.target]
        if self.dice.chance(20):
            words = [self.target, self.source, *words[:-2]]
        return ' '.join(word for word in words if word)


def give_fifo(dice, name, commands):
    """Gives most FIFOs one writer and one reader, which most often stands behind it; and some of these are tee and paste."""
    writer, reader = dice.below(len(commands)), dice.below(len(commands))
    if writer >= reader and dice.chance(60):
        writer, reader = 0, len(commands) - 1
    if dice.chance(30):
        commands[writer].begin('tee')
        commands[reader].begin('paste -')
    if dice.chance(95):
        any(command.write(name) for command in commands[writer:] + commands[:writer])
    if dice.chance(95):
        any(command.read(name) for command in commands[reader:] + commands[:reader])
    if dice.chance(5):
        dice.one_of([Command.write, Command.read])(dice.one_of(commands), name)


def give_outputs(dice, pipelines):
    """Gives most pipelines but the last an output of their own, and seldom any command one that may be another's."""
    outputs = list(OUTPUTS)
    for pipeline in pipelines[:-1]:
        if not pipeline[-1].target and dice.chance(95):
            pipeline[-1].target = '> ' + outputs.pop(dice.below(len(outputs)))
    for pipeline in pipelines:
        for command in pipeline:
            if dice.chance(15):
                command.write(dice.one_of(OUTPUTS + ['a', '-', 'in']))


def make_script(dice):
    """A script in the grammar."""
    pipelines = [[Command(dice) for _ in range(dice.one_of([1, 1, 2, 2, 3, 4]))] for _ in range(dice.one_of([1, 1, 2, 2, 3, 4]))]
    fifos = [name for name in 'fgh' if dice.chance(35)]
    for name in fifos:
        give_fifo(dice, name, [command for pipeline in pipelines for command in pipeline])
    give_outputs(dice, pipelines)
    if fifos and dice.chance(5):
        fifos.append(dice.one_of(fifos))
    text = ''
    while fifos:
        count = 1 + dice.below(len(fifos))
        text += ' '.join(['mkfifo', *fifos[:count]]) + dice.one_of(['; ', '\n', ';\n'])
        fifos = fifos[count:]
    lines = [dice.one_of([' | ', '|', ' |\n']).join(command.text() for command in pipeline) for pipeline in pipelines]
    lines = [('! ' if dice.chance(15) else '') + line for line in lines]
    return text + dice.one_of([' & ', '&', ' &\n']).join(lines) + dice.one_of(['', ';', '\n'])
