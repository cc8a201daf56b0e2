"""Rows of tests/atomic that look at the calls of a run, or in which one of them fails or waits (strace).

Each row is a function that takes a new folder and gives what differs, one text for each difference. SKIPPED is raised with the reason if the
system lacks what it needs. Rights are compared with those that the system's own sh gives a file.
"""
import os
import re
import shutil
import stat
import struct
import subprocess
import time

from .program import PROGRAM

SECONDS = 30
OLD = b'old\n'
NAMES = 'abcdef'
# Six outputs in the order of the plan: the standard output of tee first, and then its operands.
SIX = 'tee a b c d e < in > f'
ORDER = 'fabcde'


class Skipped(Exception):
    """Why a row is not tried."""


def put(path, content=OLD):
    with open(path, 'wb') as file:
        file.write(content)


def content_of(path):
    try:
        with open(path, 'rb') as file:
            return file.read()
    except (FileNotFoundError, IsADirectoryError):
        return None


def mode_of(path):
    return stat.S_IMODE(os.stat(path).st_mode)


def prepare(folder, names=NAMES, content=OLD):
    """Puts an input and these old outputs into a folder."""
    put(os.path.join(folder, 'in'), b'ab\n')
    for name in names:
        put(os.path.join(folder, name), content)


def left_in(folder):
    return sorted(name for name in os.listdir(folder) if name.startswith('.') and name.endswith('.plrun'))


def need_strace():
    if not shutil.which('strace') or subprocess.run(['strace', '-o', os.devnull, 'true'], capture_output=True, check=False).returncode:
        raise Skipped('there is no strace')


def words_of(script, how='--atomic', *options):
    return [PROGRAM, how, *options, '-c', script]


def ran(words, folder, **options):
    """The status and the lines of a run that ends by itself."""
    options = {'stdin': subprocess.DEVNULL, **options}
    try:
        done = subprocess.run(words, cwd=folder, stdout=subprocess.PIPE, stderr=subprocess.PIPE, timeout=SECONDS, check=False, **options)
    except subprocess.TimeoutExpired:
        return None, [f'no end in {SECONDS} s']
    return done.returncode, done.stderr.decode(errors='replace').splitlines()


def begin(words, folder, **options):
    options = {'stdin': subprocess.DEVNULL, 'stderr': subprocess.PIPE, 'stdout': subprocess.DEVNULL, **options}
    return subprocess.Popen(words, cwd=folder, **options)


def end(child, sent=None):
    """The status and the lines of a run that was begun. It is ended if it does not end."""
    try:
        said = child.communicate(sent, timeout=SECONDS)[1]
        return child.returncode, (said or b'').decode(errors='replace').splitlines()
    except subprocess.TimeoutExpired:
        child.kill()
        child.communicate()
        return None, [f'no end in {SECONDS} s']


def wait_for(path, seconds=5):
    """Waits until there is a file."""
    until = time.monotonic() + seconds
    while not os.path.lexists(path) and time.monotonic() < until:
        time.sleep(0.005)


def traced(words, folder, *injected):
    """The status and the lines of a run, and its calls with files in a row: name, arguments, result."""
    need_strace()
    at = os.path.join(os.path.dirname(folder), os.path.basename(folder) + '.trace')
    how = ['strace', '-f', '-qq', '-y', '-o', at, '-e', 'trace=%file,%desc', *(word for one in injected for word in ('-e', 'inject=' + one))]
    found = ran([*how, *words], folder)
    calls, begun = [], {}
    with open(at, encoding='utf-8', errors='replace') as file:
        for line in file:
            thread, _, call = line.rstrip('\n').partition(' ')
            call = call.strip()
            if call.endswith('<unfinished ...>'):
                begun[thread] = call[:-len('<unfinished ...>')].rstrip()
                continue
            resumed = re.match(r'<\.\.\. \w+ resumed>', call)
            if resumed:
                call = begun.pop(thread, '') + call[resumed.end():]
            parts = re.match(r'(\w+)\((.*)\)\s+= (.*)', call)
            if parts:
                calls.append(parts.groups())
    os.remove(at)
    return found, calls


def is_call(call, *names):
    return call[0] in names


SYNCS = ('fsync', 'fdatasync', 'sync_file_range', 'syncfs', 'sync')
RENAMES = ('rename', 'renameat', 'renameat2')
RIGHTS = ('fchmod', 'fchown', 'chmod', 'chown', 'fchmodat', 'fchownat', 'lchown')


def compare(what, found, expected):
    return [] if found == expected else [f'{what}: {found!r} for {expected!r}']


def outputs(folder, expected):
    """Compares what these files hold, and that nothing is left."""
    differ = [text for name, content in expected.items() for text in compare(name, content_of(os.path.join(folder, name)), content)]
    return differ + compare('left', left_in(folder), [])


# ---- the order of the calls

def order(script, names, files, folders):
    """A row: so many files are stored, then all are renamed, then so many folders are stored; and nothing else is called between renames."""
    def row(folder):
        os.mkdir(os.path.join(folder, 'deep'))
        prepare(folder, names)
        found, calls = traced(words_of(script, '--atomic=synced'), folder)
        differ = compare('status', found, (0, []))
        kinds = [call[0] for call in calls if is_call(call, *SYNCS, *RENAMES, *RIGHTS)]
        plain = ''.join('r' if kind in RENAMES else 's' if kind == 'fsync' else 'm' if kind in RIGHTS else '?' for kind in kinds)
        differ += compare('stored, renamed, folders stored', plain.replace('m', ''), 's' * files + 'r' * files + 's' * folders)
        if 'm' in plain[plain.find('r'):]:
            differ.append(f'rights are given after the first rename: {plain}')
        places = [place for place, call in enumerate(calls) if is_call(call, *RENAMES)]
        between = [call[0] for call in calls[places[0]:places[-1] + 1] if not is_call(call, *RENAMES)] if places else ['no rename']
        differ += compare('between two renames', between, [])
        return differ + outputs(folder, {name: b'ab\n' for name in names})
    return row


def rights_before_renames(folder):
    """Without =synced no file is stored, and all have their rights before the first rename."""
    prepare(folder)
    os.chmod(os.path.join(folder, 'b'), 0o640)
    found, calls = traced(words_of(SIX), folder)
    plain = ''.join('r' if is_call(call, *RENAMES) else 'm' if is_call(call, 'fchmod') else 's' for call in calls if is_call(call, *SYNCS, *RENAMES, *RIGHTS))
    return compare('status', found, (0, [])) + compare('rights, renames', plain, 'm' * 6 + 'r' * 6) + outputs(folder, {name: b'ab\n' for name in NAMES})


def failing(call, when, error, named, new):
    """A row: the call with this number fails for this cause. F2 names one of these outputs, and those of new have their new content."""
    def row(folder):
        prepare(folder)
        found, _ = traced(words_of(SIX, '--atomic=synced'), folder, f'{call}:error={error}:when={when}')
        differ = compare('status', found[0], 4)
        if found[1][:1] not in [[f'plrun: F2 WriteFault: {name}'] for name in named]:
            differ.append(f'it says {found[1]}')
        return differ + outputs(folder, {name: b'ab\n' if name in new else OLD for name in NAMES})
    return row


def appended_is_stored_once(folder):
    """A file that is appended to is stored once, and its folder only if it is new."""
    prepare(folder, 'a')
    found, calls = traced(words_of('cat in >> a', '--atomic=synced'), folder)
    differ = compare('status', found, (0, [])) + compare('syncs', [call[0] for call in calls if is_call(call, *SYNCS)], ['fsync'])
    found, calls = traced(words_of('cat in >> new', '--atomic=synced'), folder)
    differ += compare('status', found, (0, [])) + compare('syncs of a new file', [call[0] for call in calls if is_call(call, *SYNCS)], ['fsync'] * 2)
    return differ + outputs(folder, {'a': OLD + b'ab\n', 'new': b'ab\n'})


# ---- rights

def private(folder):
    """Nobody else may open a new file until it is whole: it is made with mode 0600, and gets its mode after the last write."""
    prepare(folder, 'o')
    os.chmod(os.path.join(folder, 'o'), 0o640)
    mask = os.umask(0o022)
    try:
        found, calls = traced(words_of('tee new < in > o'), folder)
    finally:
        os.umask(mask)
    differ = compare('status', found, (0, []))
    for name, mode in (('o', 0o640), ('new', 0o644)):
        new = f'.{name}.plrun'
        made = [call[1].rsplit(', ', 1)[1] for call in calls if is_call(call, 'openat', 'open') and f'/{new}"' in call[1] and 'O_EXCL' in call[1]]
        # One that is not there yet is made for a moment first, to see which mode the system gives it.
        differ += compare(f'modes of {new}', made, ['0600'] if name == 'o' else ['0666', '0600'])
        own = [call[0] for call in calls if is_call(call, 'write', 'writev', 'pwrite64', 'fchmod') and f'{new}>' in call[1]]
        differ += compare(f'calls with {new}', own, ['write', 'fchmod'])
        differ += compare(f'the mode of {name}', mode_of(os.path.join(folder, name)), mode)
    return differ


def private_while_it_runs(folder):
    """The mode of a new file while the run waits for a FIFO."""
    os.mkfifo(os.path.join(folder, 'slow'))
    put(os.path.join(folder, 'sec'))
    os.chmod(os.path.join(folder, 'sec'), 0o600)
    child = begin(words_of('tee new < slow > sec'), folder)
    differ = []
    with open(os.path.join(folder, 'slow'), 'wb') as writer:
        writer.write(b'secret\n')
        writer.flush()
        for name in ('.sec.plrun', '.new.plrun'):
            path = os.path.join(folder, name)
            until = time.monotonic() + SECONDS
            while content_of(path) != b'secret\n' and time.monotonic() < until:
                time.sleep(0.005)
            differ += compare(f'the mode of {name}', mode_of(path), 0o600)
    differ += compare('status', end(child), (0, []))
    return differ + compare('the mode of sec', mode_of(os.path.join(folder, 'sec')), 0o600) + outputs(folder, {'sec': b'secret\n', 'new': b'secret\n'})


def modes_as_by_sh(folder):
    """A new output has the mode that sh gives one: by the umask, and by a folder with an access control list for its files."""
    prepare(folder, '')
    listed = os.path.join(folder, 'listed')
    os.mkdir(listed)
    # Version 2, and entries of a tag, rights and an id: the owner 7, the group 5, others none (Linux, posix_acl_xattr.h).
    entries = ((0x01, 7), (0x04, 5), (0x20, 0))
    try:
        os.setxattr(listed, 'system.posix_acl_default', struct.pack('<I', 2) + b''.join(struct.pack('<HHI', *entry, 0xffffffff) for entry in entries))
    except OSError:
        print('skipped: no folder has an access control list here')
    differ = []
    for mask in (0o022, 0o027, 0o077, 0o000):
        for name in ('out', 'listed/out'):
            ours, theirs = os.path.join(folder, name), os.path.join(folder, name + '.sh')
            differ += compare('status', ran(words_of(f'cat in > {name}'), folder, umask=mask), (0, []))
            subprocess.run(['sh', '-c', f'cat in > {name}.sh'], cwd=folder, umask=mask, timeout=SECONDS, check=True)
            differ += compare(f'the mode of {name}, umask {mask:o}', mode_of(ours), mode_of(theirs))
            os.remove(ours)
            os.remove(theirs)
    return differ


def as_nobody():
    os.setgroups([])
    os.setgid(65534)
    os.setuid(65534)


def nobodys(folder):
    """A copy of the program that every user may run, in a folder that every user may write."""
    if os.getuid() != 0:
        raise Skipped('only root can be another user')
    program = os.path.join(folder, 'program')
    shutil.copy(PROGRAM, program)
    os.chmod(program, 0o755)
    for above in (folder, os.path.dirname(folder)):
        os.chmod(above, 0o755)
    shared = os.path.join(folder, 'shared')
    os.mkdir(shared)
    os.chmod(shared, 0o777)
    return program, shared


def set_id(folder):
    """A file of a stranger gives its new one neither set-user-ID nor set-group-ID, and its group no more than all others have."""
    program, shared = nobodys(folder)
    put(os.path.join(shared, 'e'), b'')
    differ = []
    for mode, expected in ((0o6777, 0o777), (0o664 | 0o2000, 0o644), (0o4676, 0o666)):
        out = os.path.join(shared, 'out')
        put(out)
        os.chown(out, 1, 2)
        os.chmod(out, mode | 0o002)
        differ += compare('status', ran([program, '--atomic', '-c', 'cat e > out'], shared, preexec_fn=as_nobody), (0, []))
        found = os.stat(out)
        differ += compare('the owner', (found.st_uid, found.st_gid), (65534, 65534))
        differ += compare(f'the mode after {mode:o}', mode_of(out), expected | 0o002 | (0o020 if mode & 0o020 else 0))
        os.remove(out)
    out = os.path.join(shared, 'own')
    put(out)
    os.chown(out, 1, 2)
    os.chmod(out, 0o6750)
    differ += compare('status', ran(words_of('cat e > own'), shared), (0, []))
    return differ + compare('owner and mode that root keeps', (os.stat(out).st_uid, os.stat(out).st_gid, mode_of(out)), (1, 2, 0o6750))


# ---- a check

def check_loop(folder):
    """Two loops of checks take away no file of the runs at the same time. A run may be refused if a check is held up while it has the lock."""
    prepare(folder, '')
    script = 'cat in > o & cat in > o2'
    loop = f'while [ -e in ]; do {PROGRAM} --check --atomic -c "{script}" 2> check.log; done; true'
    checks = [begin(['timeout', '60', 'sh', '-c', loop], folder) for _ in range(2)]
    statuses = [ran(words_of(script), folder)[0] for _ in range(80)]
    differ = compare('statuses', set(statuses) - {0, 2}, set())
    if statuses.count(2) > 8:
        differ.append(f'{statuses.count(2)} of {len(statuses)} runs are refused')
    os.rename(os.path.join(folder, 'in'), os.path.join(folder, 'end'))
    for check in checks:
        differ += compare('the loop', end(check)[0], 0)
    return differ + outputs(folder, {'o': b'ab\n', 'o2': b'ab\n'})


def slow_check(folder):
    """A check that waits before it removes its file has a lock: a run that begins meanwhile is refused, and loses nothing."""
    need_strace()
    prepare(folder, 'o')
    check = begin(['strace', '-f', '-o', os.devnull, '-e', 'trace=unlink,unlinkat', '-e', 'inject=unlink,unlinkat:delay_enter=1500000',
                   *words_of('cat in > o', '--atomic', '--check')], folder)
    wait_for(os.path.join(folder, '.o.plrun'))
    line = '-c:1:10: O2: cannot open o: another run with --atomic writes it: wait until that has ended'
    differ = compare('a run meanwhile', ran(words_of('cat in > o'), folder), (2, ['plrun: O2 OutputNotOpened: o', line]))
    differ += compare('the check', end(check), (0, [])) + outputs(folder, {'o': OLD})
    return differ + compare('a run after it', ran(words_of('cat in > o'), folder), (0, [])) + outputs(folder, {'o': b'ab\n'})


def check_during_a_run(folder):
    """A check during a run says that the output is locked, and the run finishes."""
    child = begin(words_of('cat > o'), folder, stdin=subprocess.PIPE)
    wait_for(os.path.join(folder, '.o.plrun'))
    time.sleep(0.05)
    child.stdin.write(b'new\n')
    child.stdin.flush()
    line = '-c:1:7: O2: cannot open o: another run with --atomic writes it: wait until that has ended'
    differ = compare('the check', ran(words_of('cat > o', '--atomic', '--check', '--hints=line'), folder), (2, ['plrun: O2 OutputNotOpened: o', line]))
    return differ + compare('the run', end(child), (0, [])) + outputs(folder, {'o': b'new\n'})


# ---- outputs that cannot be held back: the run and the check say the same

def refused(prepare_it, words, script='cat in > o', how='--atomic', user=None):
    """A row: the run and the check are refused with these words, and the folder is as it was."""
    def row(folder):
        program, shared = (PROGRAM, folder) if user is None else nobodys(folder)
        prepare(shared, 'o')
        clean = prepare_it(shared)
        listed = sorted(os.listdir(shared))
        differ = []
        try:
            for more in ([], ['--check']):
                found = ran([program, how, '--hints=line', *more, '-c', script], shared, preexec_fn=user)
                differ += compare(f'{more}', (found[0], found[1][:1]), (2, ['plrun: O2 OutputNotOpened: o']))
                if words not in ''.join(found[1][1:]):
                    differ.append(f'{more} says {found[1][1:]} and not {words!r}')
            differ += compare('the files', sorted(os.listdir(shared)), listed) + compare('o', content_of(os.path.join(shared, 'o')), OLD)
        finally:
            if clean:
                clean()
        return differ
    return row


def taken_by(make):
    """The name of the new file is taken by something."""
    def prepare_it(folder):
        make(os.path.join(folder, '.o.plrun'), folder)
    return prepare_it


def flagged(name, flag):
    """A file or the folder may only grow (chattr)."""
    def prepare_it(folder):
        path = os.path.join(folder, name) if name else folder
        if not shutil.which('chattr') or subprocess.run(['chattr', f'+{flag}', path], capture_output=True, check=False).returncode:
            raise Skipped('chattr does nothing here')
        return lambda: subprocess.run(['chattr', f'-{flag}', path], check=False)
    return prepare_it


def mounted(folder):
    """The output is a file of another file system, mounted there."""
    other, path = os.path.join(folder, 'other'), os.path.join(folder, 'o')
    os.mkdir(other)
    for words in (['mount', '-t', 'tmpfs', 'none', other], ['mount', '--bind', os.path.join(other, 'o'), path]):
        if words[1] == '--bind':
            put(words[2])
        if subprocess.run(words, capture_output=True, check=False).returncode:
            subprocess.run(['umount', other], capture_output=True, check=False)
            raise Skipped('nothing can be mounted here')

    def clean():
        for at in (path, other):
            subprocess.run(['umount', at], check=False)
    return clean


def unread(folder):
    """Others may write the folder, and not read it."""
    os.chmod(folder, 0o733)
    os.chmod(os.path.join(folder, 'o'), 0o666)


def sticky(folder):
    """Others may write the folder, and remove only their own files."""
    os.chmod(folder, 0o1777)
    os.chmod(os.path.join(folder, 'o'), 0o666)


# ---- files that are appended to

def appended_by_others(folder):
    """What others append to a file that was not there stays, whether the run finishes or not."""
    differ = []
    os.mkfifo(os.path.join(folder, 'slow'))
    for script, status in (('cat slow >> log', 0), ('tee -a log < slow > /dev/full', 4), ('tee -a log < slow > /dev/null', 0)):
        log = os.path.join(folder, 'log')
        child = begin(words_of(script), folder)
        with open(os.path.join(folder, 'slow'), 'wb') as writer:
            wait_for(log)
            with open(log, 'ab') as other:
                other.write(b'other\n')
            writer.write(b'mine\n')
        differ += compare(f'{script}: status', end(child)[0], status)
        content = content_of(log) or b''
        if b'other\n' not in content or (status == 0 and b'mine\n' not in content):
            differ.append(f'{script}: the log has {content!r}')
        os.remove(log)
    return differ + compare('left', left_in(folder), [])


def unfinished_append(folder):
    """A file that a run made to append to it is not there after a failure, and one that was there is cut back."""
    prepare(folder, ['old'])
    differ = []
    for script, status in (('tee -a new old < in > /dev/full', 4), ('tee -a new old < in > nofolder/x', 2), ('cat < nofile >> new', 2)):
        differ += compare(f'{script}: status', ran(words_of(script), folder)[0], status)
        differ += compare(f'{script}: new', content_of(os.path.join(folder, 'new')), None)
        differ += compare(f'{script}: old', content_of(os.path.join(folder, 'old')), OLD)
    return differ


def under_flock(folder):
    """A caller may hold a lock on the file that the run appends to."""
    if not shutil.which('flock'):
        raise Skipped('there is no flock')
    prepare(folder, ['log'])
    differ = compare('flock FILE', ran(['flock', 'log', *words_of('cat in >> log')], folder), (0, []))
    differ += compare('an inherited lock', ran(['sh', '-c', '(flock 9; "$0" "$@") 9>>log', *words_of('cat in >> log')], folder), (0, []))
    differ += compare('a failure', ran(['flock', 'log', *words_of('tee -a log < in > /dev/full')], folder)[0], 4)
    return differ + outputs(folder, {'log': OLD + b'ab\n' * 2})


def two_append(folder):
    """Two runs append to one file at the same time: nothing is lost. If one fails meanwhile, nothing of the other is cut off."""
    os.mkfifo(os.path.join(folder, 'slow'))
    differ = []
    for script, status in (('cat slow >> log', 0), ('tee -a log < slow > /dev/full', 4)):
        prepare(folder, ['log'])
        first = begin(words_of(script), folder)
        with open(os.path.join(folder, 'slow'), 'wb') as writer:
            differ += compare('the second run', ran(words_of('cat in >> log'), folder), (0, []))
            writer.write(b'slow\n')
        differ += compare('the first run', end(first)[0], status)
        content = content_of(os.path.join(folder, 'log'))
        if not content.startswith(OLD + b'ab\n') or (status == 0 and content != OLD + b'ab\n' + b'slow\n'):
            differ.append(f'the log has {content!r}')
    return differ


def removed_meanwhile(folder):
    """If the file that is appended to was removed, its bytes are lost: F2."""
    os.mkfifo(os.path.join(folder, 'slow'))
    prepare(folder, 'ab')
    child = begin(words_of('tee a < slow >> b'), folder)
    with open(os.path.join(folder, 'slow'), 'wb') as writer:
        wait_for(os.path.join(folder, '.a.plrun'))
        os.remove(os.path.join(folder, 'b'))
        writer.write(b'ab\n')
    found = end(child)
    return compare('status', (found[0], found[1][:1]), (4, ['plrun: F2 WriteFault: b'])) + outputs(folder, {'a': OLD, 'b': None})


def replaced_and_appended(folder):
    """One output replaces a file that another would append to, under another name: refused."""
    prepare(folder, '')
    found = ran(words_of('tee -a out < in > ./out'), folder)
    return compare('status', (found[0], found[1][:1]), (2, ['plrun: O2 OutputNotOpened: out'])) + outputs(folder, {'out': None})


# ---- names

def long_names(folder):
    """A name of up to 255 bytes can be held back, and what a killed run left of it is found again."""
    differ = []
    for length in (247, 248, 249, 250, 254, 255):
        prepare(folder, '')
        name = 'n' * length
        child = begin(words_of(f'cat > {name}'), folder, stdin=subprocess.PIPE)
        until = time.monotonic() + 5
        while not left_in(folder) and time.monotonic() < until:
            time.sleep(0.005)
        child.kill()
        child.communicate()
        differ += compare(f'{length}: left by a kill', len(left_in(folder)), 1)
        differ += compare(f'{length}: status', ran(words_of(f'cat in > {name}'), folder), (0, []))
        differ += outputs(folder, {name: b'ab\n'})
    one, two = 'n' * 250 + 'a', 'n' * 250 + 'b'
    differ += compare('two long names', ran(words_of(f'tee {one} < in > {two}'), folder), (0, [])) + outputs(folder, {one: b'ab\n', two: b'ab\n'})
    found = ran(words_of('cat in > ' + 'n' * 256, '--atomic', '--hints=line'), folder)
    return differ + compare('256', (found[0], found[1][-1][-18:]), (2, 'File name too long'))


def empty_names(folder):
    """An empty name is no output: it is refused before anything is touched."""
    prepare(folder, 'o')
    differ = []
    for more in ([], ['--check']):
        found = ran(words_of("cat in > o & cat in > ''", '--atomic', *more), folder)
        differ += compare(f'{more}', found[0], 2)
    return differ + outputs(folder, {'o': OLD})


NEW = 'its new file is .NAME.plrun, and something else has that name'
ROWS = {
    'six outputs in one folder': order(SIX, NAMES, 6, 1),
    'one output': order('cat in > a', 'a', 1, 1),
    'three outputs in one folder': order('tee a b < in > c', 'abc', 3, 1),
    'two outputs in one folder': order('tee a < in > b', 'ab', 2, 1),
    'outputs in two folders': order('tee deep/x b < in > deep/y', ('b', 'deep/x', 'deep/y'), 3, 2),
    'rights before renames': rights_before_renames,
    'the first file cannot be stored': failing('fsync', 1, 'EIO', NAMES, ''),
    'the sixth file cannot be stored': failing('fsync', 6, 'EINVAL', NAMES, ''),
    'the folder cannot be stored': failing('fsync', 7, 'EIO', ORDER[5], NAMES),
    'the folder is none that is stored': failing('fsync', 7, 'EINVAL', ORDER[5], NAMES),
    'the first rename fails': failing('rename', 1, 'EIO', ORDER[0], ''),
    'the third rename fails': failing('rename', 3, 'ENOSPC', ORDER[2], ORDER[:2]),
    'the sixth rename fails': failing('rename', 6, 'EXDEV', ORDER[5], ORDER[:5]),
    'appended and stored': appended_is_stored_once,
    'a private new file': private,
    'a private new file while it is written': private_while_it_runs,
    'modes as by sh': modes_as_by_sh,
    'set-user-ID and set-group-ID': set_id,
    'a loop of checks': check_loop,
    'a slow check': slow_check,
    'a check during a run': check_during_a_run,
    'a folder has the name': refused(taken_by(lambda path, _: os.mkdir(path)), NEW),
    'a link has the name': refused(taken_by(lambda path, _: os.symlink('in', path)), NEW),
    'a FIFO has the name': refused(taken_by(lambda path, _: os.mkfifo(path)), NEW),
    'a hard link has the name': refused(taken_by(lambda path, folder: os.link(os.path.join(folder, 'in'), path)), NEW),
    'a folder that may only grow': refused(flagged('', 'a'), 'its folder lets none be removed'),
    'a log that may only grow': refused(flagged('o', 'a'), 'it may only grow (chattr +a)', 'cat in >> o'),
    'a mount point': refused(mounted, 'it is a mount point'),
    'a folder that cannot be read': refused(unread, 'its folder is stored too, and it cannot be read', how='--atomic=synced', user=as_nobody),
    'a sticky folder': refused(sticky, 'its folder lets none be removed', user=as_nobody),
    'others append': appended_by_others,
    'an append that fails': unfinished_append,
    'under a lock of the caller': under_flock,
    'two runs append': two_append,
    'a log is removed': removed_meanwhile,
    'replaced and appended': replaced_and_appended,
    'long names': long_names,
    'an empty name': empty_names,
}


def try_rows(top, rows):
    """What differs in each of these rows, with its name."""
    for name, row in rows.items():
        folder = os.path.join(top, 'held', 'row')
        os.makedirs(folder)
        try:
            yield from ((name, text) for text in row(folder))
        except Skipped as why:
            print(f'skipped: {name}, since {why}')
        finally:
            shutil.rmtree(folder)
