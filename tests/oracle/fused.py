"""A file system in memory that tests/crashes mounts by FUSE: it is not local, it can fail, and it keeps a log from which a loss of power is replayed.

A process of its own reads the requests of the kernel from /dev/fuse (linux/fuse.h, protocol 7.31). There is one folder. Each request that changes
something is noted in the log, and so is each sync. One request of a kind can be made to fail: the one with a given number.

`after_each` replays a log. After each request it says what each name may hold if the power fails at that moment. Only a sync makes something last. If a
byte of a file was not synced, the file may hold anything. A name means what it meant at the last sync of the folder, or anything that it has meant since:
no order of the renames is assumed.
"""
import contextlib
import errno
import os
import pickle
import shutil
import signal
import stat
import struct
import subprocess
import time

from .held import Skipped

ROOT, AHEAD, MOST = 1, 131072, 131072
# Numbers of requests.
(LOOKUP, FORGET, GETATTR, SETATTR, UNLINK, RENAME, OPEN, READ, WRITE, STATFS, RELEASE, FSYNC, FLUSH, INIT, OPENDIR, READDIR, RELEASEDIR, FSYNCDIR,
 CREATE, INTERRUPT, DESTROY, FORGETS) = (1, 2, 3, 4, 10, 12, 14, 15, 16, 17, 18, 20, 25, 26, 27, 28, 29, 30, 35, 36, 38, 42)
# The kinds of requests that can fail: one of fsync with the flag for data alone is a kind of its own.
KINDS = {WRITE: 'write', FSYNC: 'fsync', FSYNCDIR: 'fsync of the folder', RENAME: 'rename', FLUSH: 'close'}
DATA = 'fdatasync'
# A look for a file of this name begins a run, and the next one ends it. Only the requests of the run are counted.
MARK = 'mark'
# A piece of a file that is a disk.
PIECE = 'piece'
# The bits of SETATTR that say what is set.
MODE, UID, GID, SIZE = 1, 2, 4, 8


class Node:
    """A file, or the folder."""
    def __init__(self, mode, uid, gid):
        self.mode, self.uid, self.gid, self.data = mode, uid, gid, bytearray()


class FileSystem:
    """The files of a mount, and the log of what was asked of them."""
    def __init__(self, failing):
        self.nodes, self.names, self.log = {ROOT: Node(stat.S_IFDIR | 0o755, 0, 0)}, {}, []
        # The kind, the number and the cause of the request that fails, how many of this kind there were, and whether they are counted yet.
        self.failing, self.count, self.counts = failing, 0, False

    def attributes(self, number):
        node = self.nodes[number]
        size = len(node.data)
        return struct.pack('=6Q10I', number, size, (size + 511) // 512, 0, 0, 0, 0, 0, 0, node.mode, 1, node.uid, node.gid, 0, 4096, 0)

    def entry(self, number):
        return struct.pack('=QQQQII', number, 0, 0, 0, 0, 0) + self.attributes(number)

    def named(self, name):
        if name not in self.names:
            raise OSError(errno.ENOENT, name)
        return self.names[name]

    def looked(self, name):
        if name == MARK:
            self.counts = not self.counts
            self.log.append((MARK, None, None))
        return self.named(name)

    def fail(self, kind, name):
        """Fails if the request of this kind is the one that is to fail."""
        if self.counts and self.failing and self.failing[0] == kind:
            self.count += 1
            if self.count == self.failing[1]:
                self.log.append(('failed', kind, name))
                raise OSError(self.failing[2], name)

    def name_of(self, number):
        """The name of a file, or that of the folder."""
        return next((name for name, known in self.names.items() if known == number), '.')

    def answer(self, request, number, user, group, body):
        """What the kernel gets for a request. None if it wants no answer."""
        if request in (FORGET, FORGETS, INTERRUPT):
            return None
        if request == INIT:
            return struct.pack('=IIIIHHIIHHI28x', 7, min(31, struct.unpack_from('=II', body)[1]), AHEAD, 1 << 5, 16, 12, MOST, 1, 0, 0, 0)
        if request == LOOKUP:
            return self.entry(self.looked(os.fsdecode(body[:-1])))
        if request in (GETATTR, SETATTR):
            if request == SETATTR:
                self.set(number, body)
            return struct.pack('=QII', 0, 0, 0) + self.attributes(number)
        if request in (OPEN, OPENDIR):
            return struct.pack('=QII', 0, 0, 0)
        if request == CREATE:
            return self.create(os.fsdecode(body[16:-1]), struct.unpack_from('=II', body)[1], user, group)
        if request == READ:
            _, place, size = struct.unpack_from('=QQI', body)
            return bytes(self.nodes[number].data[place:place + size])
        if request == READDIR:
            return self.listed(*struct.unpack_from('=QQI', body)[1:])
        if request == STATFS:
            return struct.pack('=5Q4I24x', 1 << 20, 1 << 20, 1 << 20, 1 << 20, 1 << 20, 4096, 255, 4096, 0)
        if request in (WRITE, FSYNC, FSYNCDIR, RENAME, UNLINK, FLUSH):
            return self.change(request, number, body)
        if request in (RELEASE, RELEASEDIR, DESTROY):
            return b''
        raise OSError(errno.ENOSYS, '')

    def set(self, number, body):
        valid, _, _, size = struct.unpack_from('=IIQQ', body)
        mode, _, user, group = struct.unpack_from('=IIII', body, 68)
        node = self.nodes[number]
        if valid & MODE:
            node.mode = stat.S_IFMT(node.mode) | stat.S_IMODE(mode)
        node.uid, node.gid = user if valid & UID else node.uid, group if valid & GID else node.gid
        if valid & SIZE:
            node.data[:] = node.data[:size].ljust(size, b'\0')
            self.log.append(('write', number, self.whole(number)))

    def create(self, name, mode, user, group):
        if name in self.names:
            raise OSError(errno.EEXIST, name)
        number = max(self.nodes) + 1
        self.nodes[number], self.names[name] = Node(mode, user, group), number
        self.log.append(('name', name, number))
        return self.entry(number) + struct.pack('=QII', 0, 0, 0)

    def listed(self, place, size):
        found, names = b'', [('.', ROOT), ('..', ROOT), *self.names.items()]
        for at, (name, number) in enumerate(names[place:], place + 1):
            own = os.fsencode(name)
            one = struct.pack('=QQII', number, at, len(own), self.nodes[number].mode >> 12) + own
            one += b'\0' * (-len(one) % 8)
            if len(found) + len(one) > size:
                break
            found += one
        return found

    def change(self, request, number, body):
        """Changes or syncs something, unless it is to fail, and notes it."""
        if request == RENAME:
            old, new = (os.fsdecode(part) for part in body[8:-1].split(b'\0'))
            self.fail(KINDS[RENAME], old)
            self.names[new] = self.named(old)
            del self.names[old]
            self.log += [('rename', new, self.names[new]), ('name', old, None)]
            return b''
        if request == UNLINK:
            name = os.fsdecode(body[:-1])
            self.named(name)
            del self.names[name]
            self.log.append(('name', name, None))
            return b''
        kind = DATA if request == FSYNC and struct.unpack_from('=QI', body)[1] & 1 else KINDS[request]
        self.fail(kind, self.name_of(number))
        if request == WRITE:
            _, place, size = struct.unpack_from('=QQI', body)
            data = self.nodes[number].data
            data[:] = data.ljust(place, b'\0')
            data[place:place + size] = body[40:40 + size]
            self.log.append(('write', number, bytes(data)))
            return struct.pack('=II', size, 0)
        self.log.append((kind, number, self.whole(number)))
        return b''

    def whole(self, number):
        """The bytes of a file, as the log has them."""
        return bytes(self.nodes[number].data)

    def serve(self, device):
        """Answers the kernel until nothing is mounted any longer."""
        until = time.monotonic() + 10
        while True:
            try:
                asked = os.read(device, MOST + 4096)
            except OSError as error:
                # It is mounted a moment later, or a request was taken back.
                if error.errno in (errno.ENOENT, errno.EINTR, errno.EAGAIN) or (error.errno == errno.EPERM and time.monotonic() < until):
                    time.sleep(0.0005)
                    continue
                return
            _, request, unique, number, user, group = struct.unpack_from('=IIQQII', asked)
            try:
                held, error = self.answer(request, number, user, group, asked[40:]), 0
            except OSError as fault:
                held, error = b'', fault.errno
            if held is not None:
                with contextlib.suppress(OSError):
                    os.write(device, struct.pack('=IiQ', 16 + len(held), -error, unique) + held)


class Mount:
    """A mounted file system. Its log is known once it is unmounted."""
    def __init__(self):
        self.log = []


class Disk(FileSystem):
    """The same for a file that is a disk: its log has the pieces that are written, and not the whole file."""
    def change(self, request, number, body):
        if request != WRITE:
            return super().change(request, number, body)
        _, place, size = struct.unpack_from('=QQI', body)
        self.nodes[number].data[place:place + size] = body[40:40 + size]
        self.log.append((PIECE, place, body[40:40 + size]))
        return struct.pack('=II', size, 0)

    def whole(self, number):
        return b''


def served(device, own, to):
    """Starts the process that answers the kernel, and writes its log to a pipe at its end."""
    child = os.fork()
    if child == 0:
        try:
            own.serve(device)
            with open(to, 'wb') as file:
                pickle.dump(own.log, file)
        finally:
            os._exit(0)
    return child


@contextlib.contextmanager
def mounted(folder, failing=None, kind=FileSystem):
    """A file system of this kind, mounted at a folder. `failing` is the kind, the number and the cause of a request that fails."""
    if os.getuid() != 0 or not shutil.which('mount') or not shutil.which('umount'):
        raise Skipped('only root can mount a file system by FUSE')
    try:
        device = os.open('/dev/fuse', os.O_RDWR)
    except OSError as why:
        raise Skipped(f'/dev/fuse cannot be opened ({why.strerror})') from why
    mine, theirs = os.pipe()
    mount = Mount()
    child = served(device, kind(failing), theirs)
    os.close(theirs)
    try:
        options = f'fd={device},rootmode=40000,user_id=0,group_id=0'
        done = subprocess.run(['mount', '-i', '-t', 'fuse', '-o', options, 'crashes', folder], pass_fds=[device], capture_output=True, check=False)
        os.close(device)
        if done.returncode:
            raise Skipped('nothing can be mounted by FUSE')
        try:
            yield mount
        finally:
            if subprocess.run(['umount', folder], capture_output=True, check=False).returncode:
                # Somebody else looks at it. Its process ends once nobody does.
                subprocess.run(['umount', '-l', folder], capture_output=True, check=False)
        with open(mine, 'rb', closefd=False) as file:
            mount.log = pickle.loads(file.read())
    finally:
        with contextlib.suppress(ProcessLookupError):
            os.kill(child, signal.SIGKILL)
        os.waitpid(child, 0)
        os.close(mine)


def after_each(log):
    """What each name may hold if the power fails, after each entry of a log: a set of contents. None is no file, and '?' is a file with unsynced bytes."""
    held, stored, may = {}, {}, {}

    def content(number):
        return None if number is None else stored[number] if stored.get(number) == held[number] else '?'

    for kind, what, value in log:
        if kind == 'write':
            held[what] = value
        elif kind in (DATA, KINDS[FSYNC]):
            stored[what] = value
        elif kind in ('name', 'rename'):
            held.setdefault(value, b'')
            may.setdefault(what, [None]).append(value)
        elif kind == KINDS[FSYNCDIR]:
            may = {name: numbers[-1:] for name, numbers in may.items()}
        yield (kind, what), {name: {content(number) for number in numbers} for name, numbers in may.items()}
