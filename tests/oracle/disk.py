"""A disk whose writes are kept in a log, and that disk after a loss of power (tests/crashes).

The disk is a file in a file system of FUSE (fused.py), under a loop device with ext4. The log has each piece that the kernel wrote to the disk, and each
flush, in order. A loss of power keeps all pieces before it; or all before the last flush and some of those after it. ext4 then recovers the disk.
"""
import contextlib
import os
import random
import shutil
import subprocess

from . import fused
from .held import Skipped

# 8 MiB.
SIZE = 8 << 20


def call(*words):
    """The output of a command that has to succeed."""
    done = subprocess.run(words, stdout=subprocess.PIPE, stderr=subprocess.DEVNULL, text=True, check=False)
    if done.returncode:
        raise Skipped(f'{words[0]} does not succeed here')
    return done.stdout.strip()


@contextlib.contextmanager
def mounted(top):
    """A folder on such a disk, the mount that has the log of the disk at its end, and what puts a mark into that log."""
    below, folder = os.path.join(top, 'below'), os.path.join(top, 'folder')
    for tool in ('mkfs.ext4', 'losetup'):
        if not shutil.which(tool):
            raise Skipped(f'there is no {tool}')
    for path in (below, folder):
        os.mkdir(path)
    with fused.mounted(below, kind=fused.Disk) as mount, contextlib.ExitStack() as after:
        disk = os.path.join(below, 'disk')
        with open(disk, 'wb') as file:
            file.truncate(SIZE)
        call('mkfs.ext4', '-q', '-F', '-b', '1024', '-E', 'lazy_itable_init=0', disk)
        loop = call('losetup', '--find', '--show', disk)
        after.callback(subprocess.run, ['losetup', '-d', loop], check=False)
        call('mount', '-t', 'ext4', loop, folder)
        after.callback(subprocess.run, ['umount', folder], check=False)
        yield folder, mount, lambda: os.path.exists(os.path.join(below, fused.MARK))


def disks(log):
    """The bytes of the disk after each loss of power between the two marks of a log: first the pieces until then, and then a choice of them. The last one
    comes at the second mark."""
    disk, kept, since, marks = bytearray(SIZE), bytearray(SIZE), [], 0
    for kind, place, piece in log:
        marks += kind == fused.MARK
        if kind == fused.PIECE:
            disk[place:place + len(piece)] = piece
            since.append((place, piece))
        elif kind in (fused.DATA, fused.KINDS[fused.FSYNC]):
            kept, since = bytearray(disk), []
        if marks == 2:
            break
        if marks == 1 and kind == fused.PIECE:
            yield disk
            chosen = bytearray(kept)
            for at, one in since:
                if random.random() < 0.5:
                    chosen[at:at + len(one)] = one
            yield chosen
    # Nothing of what was not flushed is kept.
    yield kept


@contextlib.contextmanager
def recovered(top, disk):
    """A folder with what ext4 finds on a disk."""
    image, folder = os.path.join(top, 'image'), os.path.join(top, 'recovered')
    os.makedirs(folder, exist_ok=True)
    with open(image, 'wb') as file:
        file.write(disk)
    call('mount', '-t', 'ext4', '-o', 'loop', image, folder)
    try:
        yield folder
    finally:
        subprocess.run(['umount', folder], check=False)
