"""Rows of tests/edges in which the system disturbs a run: its calls are interrupted, its streams do not wait, its disk is
full, or it gets no thread.

Each row is a function that takes a new folder and gives what differs. SKIPPED is raised with the reason if the system lacks what it needs.
"""
import os
import shutil
import signal
import socket
import struct
import subprocess
import tempfile
import time

from .program import PROGRAM

SECONDS = 20
SHORT = b'a\nb\nc\n'
LONG = ''.join(f'{k}\n' for k in range(1, 300_001)).encode()
# Calls that read, and those that write.
CALLS = {'read': 'read,readv,pread64', 'write': 'write,writev,pwrite64'}


class Skipped(Exception):
    """Why a row is not tried."""


def wrong(ours, expected):
    """How a status, a standard output and a standard error differ from what is expected."""
    if ours == expected:
        return ''
    return f'status {ours[0]} for {expected[0]}, {len(ours[1])} of {len(expected[1])} bytes, and it says {ours[2][:200]!r}'


def finish(child, sent=None):
    """The end of a process: status, standard output and standard error. It is ended if it comes to none."""
    try:
        printed, said = child.communicate(sent, timeout=SECONDS)
        return child.returncode, printed, said
    except subprocess.TimeoutExpired:
        return None, b'', f'no end in {SECONDS} s'.encode()
    finally:
        if child.poll() is None:
            os.killpg(child.pid, signal.SIGKILL)
            child.wait()


def start(words, folder, **streams):
    """Starts these words in a folder."""
    streams = {'stdin': subprocess.DEVNULL, 'stdout': subprocess.PIPE, 'stderr': subprocess.PIPE, **streams}
    return subprocess.Popen(words, cwd=folder, bufsize=0, start_new_session=True, **streams)


# ---- calls that are interrupted

def interrupted(call, when, path, script):
    """A row in which one or more calls are interrupted: all, or those with a file of this name."""
    def row(folder):
        if not shutil.which('strace') or subprocess.run(['strace', '-o', os.devnull, 'true'], capture_output=True, check=False).returncode:
            raise Skipped('no call was interrupted, since there is no strace')
        words = ['strace', '-f', '-qq', '-o', os.devnull, '-e', f'inject={CALLS[call]}:error=EINTR:when={when}']
        words += ['-P', os.path.join(folder, path)] if path else []
        ended = finish(start([*words, PROGRAM, '-c', script], folder))
        with open(os.path.join(folder, 'copy'), 'rb') as file:
            printed = file.read() or ended[1]
        # strace says where a name leads.
        return wrong((ended[0], printed, b'' if ended[0] == 0 else ended[2]), (0, SHORT, b''))
    return row


def stopped(folder):
    """A socket with a limit of time, whose read is interrupted by a stop."""
    own, theirs = socket.socketpair()
    with own:
        with theirs:
            theirs.setsockopt(socket.SOL_SOCKET, socket.SO_RCVTIMEO, struct.pack('ll', 1000, 0))
            child = start([PROGRAM, '-c', 'cat'], folder, stdin=theirs)
        own.send(b'one\n')
        first = child.stdout.read(4)
        wait_for_state(child, 'S')
        child.send_signal(signal.SIGSTOP)
        wait_for_state(child, 'T')
        child.send_signal(signal.SIGCONT)
        wait_for_state(child, 'S')
        time.sleep(0.1)
        try:
            own.send(b'two\n')
        except OSError:
            pass
    ended, printed, said = finish(child)
    return wrong((ended, first + printed, said), (0, b'one\ntwo\n', b''))


def wait_for_state(child, state):
    """Waits until a process sleeps or is stopped, as the system shows it, or has ended."""
    until = time.monotonic() + SECONDS
    while time.monotonic() < until and child.poll() is None:
        with open(f'/proc/{child.pid}/stat', encoding='utf-8') as file:
            if file.read().rsplit(')', 1)[1].split()[0] == state:
                return
        time.sleep(0.01)


# ---- streams that do not wait

def unwaiting_output(folder):
    """A standard output that does not wait for its reader, who comes late."""
    own, theirs = os.pipe()
    os.set_blocking(theirs, False)
    child = start([PROGRAM, '-c', 'cat big'], folder, stdout=theirs)
    os.close(theirs)
    time.sleep(0.3)
    with open(own, 'rb') as file:
        printed = file.read()
    ended, _, said = finish(child)
    return wrong((ended, printed, said), (0, LONG, b''))


def unwaiting_input(folder):
    """A standard input that does not wait for its writer, who comes late."""
    theirs, own = os.pipe()
    os.set_blocking(theirs, False)
    child = start([PROGRAM, '-c', 'cat'], folder, stdin=theirs)
    os.close(theirs)
    for line in (b'a\n', b'b\nc\n'):
        time.sleep(0.2)
        try:
            os.write(own, line)
        except OSError:
            break
    os.close(own)
    return wrong(finish(child), (0, SHORT, b''))


# ---- a disk that is full

def full_file_system(folder):
    """A file system of 64 KiB: it has what a write took, and the next write fails."""
    place = os.path.join(folder, 'full')
    os.mkdir(place)
    if subprocess.run(['mount', '-t', 'tmpfs', '-o', 'size=64k', 'none', place], capture_output=True, check=False).returncode:
        raise Skipped('no full file system was written to, since none can be mounted here')
    try:
        ended = finish(start([PROGRAM, '-c', 'cat < /dev/zero > full/out'], folder))
        size = os.path.getsize(os.path.join(place, 'out'))
    finally:
        subprocess.run(['umount', place], check=True)
    return wrong(ended, (4, b'', b'plrun: F2 WriteFault: full/out\n')) or ('' if size == 65536 else f'the output has {size} bytes')


# ---- threads that are refused

def without_threads(given):
    """A row in which the system refuses each thread: with these words the run goes on without, or ends with status 4."""
    def row(folder):
        if os.geteuid() != 0 or not shutil.which('runuser'):
            raise Skipped('no thread was refused, since that needs root and runuser')
        os.chmod(folder, 0o755)
        shutil.copy(PROGRAM, os.path.join(folder, 'plrun'))
        script = 'tr 1 b < big | uniq -c | fold -w 3 | wc'
        limited = f'ulimit -u 1; exec ./plrun {given} -c "$1"'
        ended = finish(start(['runuser', '-u', 'nobody', '--', 'bash', '-c', limited, 'bash', script], folder))
        if given:
            refused = ended[0] == 4 and ended[2].startswith(b'plrun: F4 ')
            return '' if refused else f'status {ended[0]} for 4, and it says {ended[2][:200]!r}'
        whole = subprocess.run([PROGRAM, '--workers', '1', '-c', script], cwd=folder, capture_output=True, check=False).stdout
        return wrong(ended, (0, whole, b''))
    return row


ROWS = {
    'a read that is interrupted': interrupted('read', '1', 'in', 'cat in'),
    'a later read that is interrupted': interrupted('read', '2', 'in', 'cat in'),
    'each second read of a file is interrupted': interrupted('read', '1+2', 'in', 'cat in'),
    'a read in a pipeline that is interrupted': interrupted('read', '1', 'in', 'cat < in | cat'),
    'a write that is interrupted': interrupted('write', '1', '', 'cat in'),
    'a write to a file that is interrupted': interrupted('write', '1', 'copy', 'cat in > copy'),
    'a write in a pipeline that is interrupted': interrupted('write', '1', 'copy', 'cat in | tee copy | tail -c 0'),
    'a read that a stop interrupts': stopped,
    'a standard output that does not wait': unwaiting_output,
    'a standard input that does not wait': unwaiting_input,
    'a full file system': full_file_system,
    'threads that are refused': without_threads(''),
    'threads that are asked for and refused': without_threads('--workers 4'),
}


def try_row(name):
    """The name of a row, what differs, and why it was not tried."""
    with tempfile.TemporaryDirectory() as room:
        folder = os.path.realpath(room)
        for file, held in {'in': SHORT, 'big': LONG, 'copy': b''}.items():
            with open(os.path.join(folder, file), 'wb') as made:
                made.write(held)
        try:
            return name, ROWS[name](folder), ''
        except Skipped as why:
            return name, '', str(why)
