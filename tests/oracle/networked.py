"""Rows of tests/atomic for outputs on a file system that is not local: the data of each is synced once, at its end (docs/plrun.1, FILES).

No network file system is mounted. The folder of a row is a tmpfs, and the run has its own list of mounts (/proc/self/mountinfo), in which that tmpfs
has another type, as nfs4. A shell mounts this list over that of its own process, in a namespace of its own, and becomes the program. `strace`
shows the calls of the program, and lets a sync fail.

The rows have the form of those of held.py. A list that leaves the type as it is shows that nothing else causes the syncs.
"""
import contextlib
import os
import re
import shutil
import subprocess

from .held import OLD, RENAMES, SECONDS, SYNCS, Skipped, compare, content_of, is_call, left_in, need_strace, put, traced
from .program import PROGRAM

# An input that takes more than one write.
TEXT = b''.join(b'%d\n' % number for number in range(30_000))
LIST = '/proc/self/mountinfo'
# Mounts the file that is named first over the list of this process, and becomes the command that follows.
WITH_LIST = 'mount --bind "$0" "/proc/$$/mountinfo" && exec "$@"'
NETWORK = ('nfs', 'nfs4', 'cifs', 'ceph', '9p', 'fuse', 'fuse.sshfs')
LOCAL = ('tmpfs', 'ramfs', 'overlay', 'btrfs', 'bcachefs', 'zfs', 'xfs', 'ext4')
# The calls that sync the data of a file, and a sign for each call with a file.
SYNC = ('fsync', 'fdatasync')
SIGNS = {**dict.fromkeys(('write', 'writev', 'pwrite64', 'pwritev', 'pwritev2'), 'w'), **dict.fromkeys(SYNCS, '?'), **dict.fromkeys(SYNC, 's'),
         **dict.fromkeys(RENAMES, 'r')}


@contextlib.contextmanager
def on_tmpfs(folder, old=()):
    """A tmpfs in the place of a folder, with an input and these old outputs."""
    need_strace()
    if not shutil.which('mount') or subprocess.run(['mount', '-t', 'tmpfs', 'none', folder], capture_output=True, check=False).returncode:
        raise Skipped('nothing can be mounted here')
    try:
        put(os.path.join(folder, 'in'), TEXT)
        for name in old:
            put(os.path.join(folder, name))
        yield
    finally:
        subprocess.run(['umount', folder], check=False)


def list_for(folder, kind, others):
    """A copy of the list of mounts in which the file system of this folder has this type. Without a type the list does not have it. If a type of the
    others is given, all of them have that one, some have nearly the same device, and the own line has more fields."""
    device = os.stat(folder).st_dev
    own = f'{os.major(device)}:{os.minor(device)}'
    near = [f'8:{os.minor(device)}', f'{own}0', f'0:1{os.minor(device)}'] if others else []
    lines = [f'1 1 {number} / /near rw - {others} none rw\n' for number in near]
    more = ' shared:7 master:3' if others else ''
    with open(LIST, encoding='utf-8', errors='surrogateescape') as file:
        for line in file:
            fields, _, rest = line.partition(' - ')
            known, _, rest = rest.partition(' ')
            if fields.split(' ')[2] != own:
                lines.append(f'{fields} - {others or known} {rest}')
            elif kind:
                lines.append(f'{fields}{more} - {kind} {rest}')
    path = folder + '.mounts'
    with open(path, 'w', encoding='utf-8', errors='surrogateescape') as file:
        file.writelines(lines)
    return path


def run_on(folder, words, kind, others=None, to='', injected=()):
    """The status and the lines of a run that has this list, and its calls. Its standard output is the file `to`, if that is given."""
    path = list_for(folder, kind, others)
    words = ['unshare', '-m', 'sh', '-c', WITH_LIST + (f' > {to}' if to else ''), path, PROGRAM, *words]
    try:
        with open(path, 'rb') as file:
            look = [*words[:4], WITH_LIST, path, 'cat', LIST]
            if not shutil.which('unshare') or subprocess.run(look, capture_output=True, timeout=SECONDS, check=False).stdout != file.read():
                raise Skipped('no process can have its own list of mounts here')
        found, calls = traced(words, folder, *injected)
    finally:
        os.remove(path)
    begun = max((place for place, call in enumerate(calls) if is_call(call, 'execve') and call[2] == '0'), default=-1)
    return found, calls[begun + 1:]


def name_in(call, folder):
    """The name of the file of a call in this folder: that of its descriptor, or the first one in its arguments. The folder itself is `.`."""
    folder, descriptor, word = os.path.realpath(folder), re.match(r'\d+<(/.*?)>', call[1]), re.search(r'"(.*?)"', call[1])
    path = descriptor[1] if descriptor else os.path.join(folder, word[1]) if word else '/'
    return os.path.relpath(path, folder)


def signs_of(calls, folder):
    """The calls with each file of a folder, in order: `w` for one write or more, `s` for a sync of its data, `r` for a rename, `?` for another sync. And
    those of all files in one row, without the writes."""
    done, whole = {}, ''
    for call in calls:
        sign, name = SIGNS.get(call[0], ''), name_in(call, folder)
        if sign == '?' or (sign and not name.startswith('..')):
            done[name] = re.sub('w+', 'w', done.get(name, '') + sign)
            whole += sign.strip('w')
    return done, whole


def contents(folder, names, expected):
    """Compares what these outputs hold, and looks whether a new file is left."""
    differ = [name for name in names if content_of(os.path.join(folder, name)) != expected]
    return compare('outputs with other contents', differ, []) + compare('left', left_in(folder), [])


# ---- rows

def kept(script, names, signs='ws', *, kinds=('nfs4',), others=None, given=(), to='', before=b'', stored=()):
    """A row: a run finishes, and makes these calls with each output: the syncs of all come before the first rename. Then it stores these folders. If a
    text is given, the outputs had it before, and are appended to."""
    def row(folder):
        differ = []
        for kind in kinds:
            with on_tmpfs(folder, names if before else ()):
                found, calls = run_on(folder, [*given, '-c', script], kind, others, to)
                done, whole = signs_of(calls, folder)
                own = {f'.{name}.plrun' if 'r' in signs else name: signs for name in names}
                differ += compare(f'{kind}: status', found, (0, []))
                differ += compare(f'{kind}: calls', done, {**own, **dict.fromkeys(stored, 's')})
                differ += compare(f'{kind}: order', whole, ''.join(sign * len(names) for sign in signs.strip('w')) + 's' * len(stored))
                differ += contents(folder, names, before + TEXT)
        return differ
    return row


def failing(script, names, when=1, *, given=(), to='', shown=None, after=None):
    """A row: the sync with this number fails. The status is 4, and F2 names its output. The outputs hold a first part, or this text and are not renamed."""
    def row(folder):
        with on_tmpfs(folder, names):
            found, calls = run_on(folder, [*given, '-c', script], 'nfs4', None, to, [f'{",".join(SYNC)}:error=EIO:when={when}'])
            failed = [name_in(call, folder) for call in calls if is_call(call, *SYNC) and 'EIO' in call[2]]
            own = [re.sub(r'^\.(.*)\.plrun$', r'\1', name) for name in failed]
            differ = compare('failed syncs of outputs', [name in names for name in own], [True])
            differ += compare('status', found[0], 4) + compare('line', found[1][:1], [f'plrun: F2 WriteFault: {shown or name}' for name in own])
            if after is not None:
                return differ + contents(folder, names, after) + compare('renames', [call for call in calls if is_call(call, *RENAMES)], [])
            held = [content_of(os.path.join(folder, name)) for name in names]
            return differ + compare('outputs with a first part', [whole is not None and TEXT.startswith(whole) for whole in held], [True] * len(names))
    return row


ONE, THREE, SIX, MORE = 'cat in > out', 'tee a b < in > c', 'tee a b c d e < in > f', 'cat in >> out'
TMPFS, ATOMIC, SYNCED = ['tmpfs'], ['--atomic'], ['--atomic=synced']
ROWS = {
    # "The data of an output on a file system that is not local, as NFS or FUSE, is synced at its end. [..] On a local file system nothing is synced."
    'an output on a network file system': kept(ONE, ['out']),
    'an output on a local file system': kept(ONE, ['out'], 'w', kinds=TMPFS),
    'six outputs on a network file system': kept(SIX, 'abcdef'),
    'six outputs on a local file system': kept(SIX, 'abcdef', 'w', kinds=TMPFS),
    'outputs of a pipeline with workers': kept('tee a < in | tee b | cat > c', 'abc', given=['--workers', '4']),
    'an append on a network file system': kept(MORE, ['out'], before=OLD),
    'an append on a local file system': kept(MORE, ['out'], 'w', kinds=TMPFS, before=OLD),
    'the standard output on a network file system': kept('cat in', ['out'], to='out'),
    'the standard output on a local file system': kept('cat in', ['out'], 'w', kinds=TMPFS, to='out'),
    'the types of network file systems': kept(ONE, ['out'], kinds=NETWORK),
    'the types of local file systems': kept(ONE, ['out'], 'w', kinds=LOCAL),
    'a network file system among local ones': kept(ONE, ['out'], others='tmpfs'),
    'a local file system among network ones': kept(ONE, ['out'], 'w', kinds=TMPFS, others='nfs4'),
    # btrfs and overlay give their files such devices.
    'a device that the list of mounts does not have': kept(ONE, ['out'], 'w', kinds=[None], others='nfs4'),
    # "If that fails, it is a failed write (F2)." EXIT STATUS: "4 [..] Each output holds a prefix of its full content."
    'the sync of an output fails': failing(ONE, ['out']),
    'the second sync of three fails': failing(THREE, 'abc', 2),
    'the last sync of three fails': failing(THREE, 'abc', 3),
    'the sync of the standard output fails': failing('cat in', ['out'], to='out', shown='standard output'),
    # "Give each regular output its new content only if the run finished [..]. Otherwise it holds what it held".
    'held outputs on a network file system': kept(THREE, 'abc', 'wsr', given=ATOMIC),
    'held outputs on a local file system': kept(THREE, 'abc', 'wr', kinds=TMPFS, given=ATOMIC),
    'a held append on a network file system': kept(MORE, ['out'], given=ATOMIC, before=OLD),
    'the last sync of three held outputs fails': failing(THREE, 'abc', 3, given=ATOMIC, after=OLD),
    'the sync of a held append fails': failing(MORE, ['out'], given=ATOMIC, after=OLD),
    # "each output is stored at its end (fsync), before the first rename. After the last one each folder is stored, once."
    'stored outputs on a network file system': kept(THREE, 'abc', 'wsr', given=SYNCED, stored='.'),
}
