"""How the text of a script is read, in whole steps: from bytes to marks, from marks to tokens, from tokens to commands, pipelines and the
script."""
import re

from . import plans

RESERVED = b'! { } case do done elif else esac fi for if in then until while'.split()
ENDS = b' \t\n&();<>|'


class Refused(Exception):
    """The rules give the text no script."""


# ---- from bytes to marks: an unquoted byte is itself, a quoted one is told apart, and a quote that is removed is empty

def marks_of(text):
    if 0 in text:
        raise Refused
    marks, at, within = [], 0, False
    while at < len(text):
        byte, at = text[at], at + 1
        if byte == ord('\\'):
            if at == len(text):
                raise Refused
            if text[at] != ord('\n'):
                marks, within = marks + [('quoted', text[at])], True
            at += 1
        elif byte in b'\'"':
            end = (single_quoted if byte == ord("'") else double_quoted)(text, at, marks)
            at, within = end, True
        elif byte in b'$`' or (byte == ord('~') and not within):
            raise Refused
        elif byte == ord('#') and not within:
            while at < len(text) and text[at] != ord('\n'):
                at += 1
        else:
            marks.append(('plain', byte))
            within = byte not in ENDS
    return marks


def single_quoted(text, at, marks):
    """Reads up to the quote that ends the string. The answer is the place behind it."""
    end = text.find(b"'", at)
    if end < 0:
        raise Refused
    marks += [('quote', None)] + [('quoted', byte) for byte in text[at:end]] + [('quote', None)]
    return end + 1


def double_quoted(text, at, marks):
    marks.append(('quote', None))
    while at < len(text) and text[at] != ord('"'):
        byte, at = text[at], at + 1
        if byte in b'$`':
            raise Refused
        if byte == ord('\\'):
            if at == len(text):
                raise Refused
            byte, at = text[at], at + 1
            if byte == ord('\n'):
                continue
            if byte not in b'$`"\\':
                marks.append(('quoted', ord('\\')))
        marks.append(('quoted', byte))
    if at == len(text):
        raise Refused
    marks.append(('quote', None))
    return at + 1


# ---- from marks to tokens: ('word', marks), ('number', digits), ('redirect', operator) and ('end', sign)

def plain_text(marks):
    """The unquoted bytes, with a 0 for each other mark."""
    return bytes(byte if kind == 'plain' else 0 for kind, byte in marks)


def tokens_of(marks):
    tokens, at, text = [], 0, plain_text(marks)
    while at < len(marks):
        if text[at] in b' \t' and marks[at][0] == 'plain':
            at += 1
        elif text[at] in ENDS and marks[at][0] == 'plain':
            sign = re.compile(rb'>>|>\||[<>|&;\n]').match(text, at)
            if re.compile(rb'>&|<[<&>]|\|\||&&|;;|[()]').match(text, at):
                raise Refused
            tokens.append(('redirect' if sign[0][:1] in b'<>' else 'end', sign[0]))
            at = sign.end()
        else:
            end = at
            while end < len(marks) and (marks[end][0] != 'plain' or text[end] not in ENDS):
                end += 1
            is_number = text[at:end].isdigit() and text[end:end + 1] in (b'<', b'>')
            tokens.append(('number', text[at:end]) if is_number else ('word', marks[at:end]))
            at = end
    return tokens


# ---- from tokens to commands, pipelines and the script

def text_of(marks):
    return bytes(byte for kind, byte in marks if kind != 'quote').decode(errors='surrogateescape')


def is_first_word(marks):
    """Whether a command may begin with this word."""
    text = plain_text(marks)
    return not (re.match(rb'[A-Za-z_][A-Za-z0-9_]*=', text) or (all(kind == 'plain' for kind, _ in marks) and text in RESERVED))


def command_of(tokens):
    """A command: its words, its input, its output, and whether it appends."""
    words, source, target, tokens = [], None, None, list(tokens)
    while tokens:
        kind, what = tokens.pop(0)
        if kind == 'word':
            if not words and not is_first_word(what):
                raise Refused
            words.append(text_of(what))
            continue
        number = what if kind == 'number' else None
        kind, operator = (kind, what) if number is None else tokens.pop(0)
        if not tokens or tokens[0][0] != 'word' or number not in (None, b'0' if operator == b'<' else b'1'):
            raise Refused
        name = text_of(tokens.pop(0)[1])
        if (source if operator == b'<' else target) is not None:
            raise Refused
        if operator == b'<':
            source = name
        else:
            target = name, operator == b'>>'
    if not words:
        raise Refused
    return words, source, target


def pipelines_of(tokens):
    """The pipelines: whether each is negated and in the background, and its commands. Newlines stand freely before a command."""
    pipelines, commands, run = [], [], []
    for kind, what in tokens + [('end', b'')]:
        if kind != 'end':
            run.append((kind, what))
        elif run or what not in (b'\n', b'') or (commands and what == b''):
            commands.append(run)
            run = []
            if what != b'|':
                is_negated = commands[0][:1] == [('word', [('plain', ord('!'))])]
                commands[0] = commands[0][is_negated:]
                pipelines.append((is_negated, what == b'&', [command_of(tokens) for tokens in commands]))
                commands = []
    return pipelines


def script_of(text):
    """The names for mkfifo, and the pipelines, of which the last alone is in the foreground."""
    fifos, pipelines = [], []
    for is_negated, is_background, commands in pipelines_of(tokens_of(marks_of(text))):
        if pipelines and not pipelines[-1][1]:
            raise Refused
        words, source, target = commands[0]
        if words[0] == 'mkfifo' and not is_negated and not pipelines:
            names = words[1:]
            if is_background or len(commands) > 1 or source is not None or target is not None or not names \
                    or any(name.startswith('-') for name in names):
                raise Refused
            fifos += names
        else:
            pipelines.append((is_negated, is_background, commands))
    if not pipelines or pipelines[-1][1]:
        raise Refused
    return fifos, pipelines


def stages_of(pipelines):
    """The commands as stages of a plan."""
    stages = []
    for is_negated, is_background, commands in pipelines:
        for k, (words, source, target) in enumerate(commands):
            stages.append(plans.Stage(len(stages) + 1, [], is_background, k == 0, k == len(commands) - 1))
            stage = stages[-1]
            stage.words, stage.source, stage.is_negated = words, source, is_negated
            if target is not None:
                stage.target, stage.appends = target
    return stages


def expected_of(text):
    """What is printed, and the fault: one of them is None, and both are if the text is refused."""
    try:
        fifos, pipelines = script_of(text)
    except Refused:
        return None, None
    return plans.plan_of(fifos, stages_of(pipelines))
