"""What checks of the built program's writes share: a library that is loaded before the C library and logs what a run does to files and
answers, the rule that what was written is synced before it is answered, and the disks that a power loss may leave.

The library needs a C compiler as `cc`. It can also leave out every sync, or fail one call, so that a check can tell whether it would see that.
"""
import os
import struct
import subprocess
from typing import NamedTuple

# Logs each call behind its end: its kind, descriptor, place, result and bytes. A call that fails by FAIL, which has a kind and a number from
# 1 on, is not made, and its error is EIO. Syncs of the kinds in SWALLOW are neither made nor logged, and are said to be done.
LIBRARY = r'''
#define _GNU_SOURCE
#include <errno.h>
#include <fcntl.h>
#include <pthread.h>
#include <stdarg.h>
#include <stdint.h>
#include <stdlib.h>
#include <string.h>
#include <sys/stat.h>
#include <sys/syscall.h>
#include <sys/uio.h>
#include <unistd.h>

static pthread_mutex_t turn = PTHREAD_MUTEX_INITIALIZER;
static int log_to = -1;
static const char *swallowed;
static char fail_kind;
static long fail_at, calls;

__attribute__((constructor)) static void begin(void)
{
    const char *path = getenv("TRACE"), *fail = getenv("FAIL");
    int fd = syscall(SYS_openat, AT_FDCWD, path, O_WRONLY | O_CREAT | O_APPEND | O_CLOEXEC, 0600);
    log_to = fcntl(fd, F_DUPFD_CLOEXEC, 900);
    if (log_to < 0)
        abort();
    syscall(SYS_close, fd);
    swallowed = getenv("SWALLOW");
    if (fail) {
        fail_kind = fail[0];
        fail_at = atol(fail + 1);
    }
}

static int swallows(char kind)
{
    return swallowed && strchr(swallowed, kind);
}

static int fails(char kind)
{
    return kind == fail_kind && ++calls == fail_at;
}

static void note(char kind, int64_t fd, int64_t at, int64_t result, const void *bytes, size_t size)
{
    int64_t head[5] = {kind, fd, at, result, (int64_t)size};
    struct iovec parts[2] = {{head, sizeof head}, {(void *)bytes, size}};
    int error = errno;
    if (syscall(SYS_writev, log_to, parts, 2) != (long)(sizeof head + size))
        abort();
    errno = error;
}

#define CALL(kind, fd, at, bytes, size, call) \
    long result; \
    pthread_mutex_lock(&turn); \
    if (fails(kind)) { errno = EIO; result = -1; } else result = call; \
    note(kind, fd, at, result, bytes, size); \
    pthread_mutex_unlock(&turn); \
    return result;

static int open_it(const char *path, int flags, int mode)
{
    CALL('O', -1, flags, path, strlen(path), syscall(SYS_openat, AT_FDCWD, path, flags, mode))
}

int open(const char *path, int flags, ...)
{
    va_list rest;
    va_start(rest, flags);
    int mode = flags & O_CREAT ? va_arg(rest, int) : 0;
    va_end(rest);
    return open_it(path, flags, mode);
}

int open64(const char *path, int flags, ...)
{
    va_list rest;
    va_start(rest, flags);
    int mode = flags & O_CREAT ? va_arg(rest, int) : 0;
    va_end(rest);
    return open_it(path, flags, mode);
}

int mkdir(const char *path, mode_t mode)
{
    CALL('M', -1, mode, path, strlen(path), syscall(SYS_mkdir, path, mode))
}

int close(int fd)
{
    CALL('C', fd, 0, "", 0, syscall(SYS_close, fd))
}

ssize_t pwrite(int fd, const void *bytes, size_t size, off_t at)
{
    CALL('P', fd, at, bytes, size, syscall(SYS_pwrite64, fd, bytes, size, at))
}

ssize_t pwrite64(int fd, const void *bytes, size_t size, off64_t at)
{
    CALL('P', fd, at, bytes, size, syscall(SYS_pwrite64, fd, bytes, size, at))
}

ssize_t write(int fd, const void *bytes, size_t size)
{
    CALL('W', fd, -1, bytes, size, syscall(SYS_write, fd, bytes, size))
}

int ftruncate(int fd, off_t size)
{
    CALL('T', fd, size, "", 0, syscall(SYS_ftruncate, fd, size))
}

int fdatasync(int fd)
{
    if (swallows('D'))
        return 0;
    CALL('D', fd, 0, "", 0, syscall(SYS_fdatasync, fd))
}

int fsync(int fd)
{
    if (swallows('F'))
        return 0;
    CALL('F', fd, 0, "", 0, syscall(SYS_fsync, fd))
}
'''

HEAD = struct.Struct('=5q')


class Event(NamedTuple):
    """A call: its kind as the library logs it, the path of what it was about, the place or the flags, what it gave, and its bytes."""
    kind: str
    path: str
    at: int
    result: int
    data: bytes


def build_library(folder):
    """Compiles the library into the folder, and gives its path."""
    source, library = os.path.join(folder, 'tracing.c'), os.path.join(folder, 'tracing.so')
    with open(source, 'w') as file:
        file.write(LIBRARY)
    subprocess.run(['cc', '-O2', '-shared', '-fPIC', '-o', library, source], check=True)
    return library


def read_events(path):
    """The events of a log. Each has the path that its descriptor was opened by; standard output's is `answers`."""
    with open(path, 'rb') as file:
        log = file.read()
    events, paths, at = [], {1: 'answers'}, 0
    while at < len(log):
        kind, descriptor, place, result, size = HEAD.unpack_from(log, at)
        data = log[at + HEAD.size:at + HEAD.size + size]
        at += HEAD.size + size
        kind = chr(kind)
        if kind in 'OM':
            name = os.path.realpath(data.decode())
            if kind == 'O' and result >= 0:
                paths[result] = name
        else:
            name = paths.get(descriptor, f'descriptor {descriptor}')
            if kind == 'C':
                paths.pop(descriptor, None)
        events.append(Event(kind, name, place, result, data))
    return events


def traced(program, library, words, text, log, **more):
    """Runs the program on this input. Gives its status, what it wrote, and its events."""
    if os.path.exists(log):
        os.remove(log)
    done = subprocess.run(
        [program, *words], input=text.encode(), stdout=subprocess.PIPE, stderr=subprocess.DEVNULL,
        env={'LD_PRELOAD': library, 'TRACE': log, **more})
    return done.returncode, done.stdout.decode(), read_events(log)


def makes_file(event):
    return event.kind == 'O' and event.result >= 0 and event.at & os.O_CREAT != 0


def is_sync(event):
    return event.kind in 'DF' and event.result == 0


def find_unsynced(events):
    """What is wrong with the order of writes, syncs and answers: each write has its sync before anything else is written to a disk, or as an
    answer, and before its file is closed; and each folder in which something was made has its own before anything is written."""
    written, folders = None, set()
    for event in events:
        if event.kind == 'T' or event.kind == 'W' and event.path != 'answers':
            return f'{event.path} is changed by another call'
        if event.kind in 'PW' and folders:
            return f'{folders.pop()} was not synced before a write to {event.path}'
        if event.kind == 'P':
            if written:
                return f'a write to {written} was not synced before the next'
            if event.result != len(event.data):
                return f'a write to {event.path} gave {event.result}'
            written = event.path
        elif event.kind == 'W' and written:
            return f'a write to {written} was not synced before an answer'
        elif event.kind == 'C' and written == event.path:
            return f'{written} was closed before it was synced'
        elif is_sync(event):
            folders.discard(event.path)
            if event.path == written:
                written = None
        elif makes_file(event) or event.kind == 'M' and event.result == 0:
            folders.add(os.path.dirname(event.path))
    if written or folders:
        return f'{written or folders.pop()} was not synced before the end'
    return None


class Disk:
    """A file as a power loss may leave it: the bytes that are kept, the writes that are not synced, and those whose sync failed, which no
    later sync keeps."""

    def __init__(self):
        self.kept = bytearray()
        self.pending = []
        self.lost = []
        self.has_entry = False

    def sync(self, is_done):
        if is_done:
            for at, data in self.pending:
                put(self.kept, at, data)
        else:
            self.lost += self.pending
        self.pending = []

    def left(self, draw, how):
        """What may be left, by what is drawn: each write that is not kept wholly, not at all, as noise, or each byte in its own way."""
        bytes_left = bytearray(self.kept)
        for at, data in self.lost + self.pending:
            old_end = len(bytes_left)
            old = bytes(bytes_left[at:at + len(data)]).ljust(len(data), b'\0')
            way = draw.choice(['old', 'new', 'noise', 'mixed']) if how == 'any' else how
            if way != 'old':
                put(bytes_left, at, left_of(draw, way, old, data))
            # what went past the old end may be cut
            if way in ('noise', 'mixed') and draw.random() < 0.5:
                del bytes_left[draw.randint(old_end, len(bytes_left)):]
        return bytes(bytes_left)


def put(content, at, data):
    if at > len(content):
        content.extend(bytes(at - len(content)))
    content[at:at + len(data)] = data


def left_of(draw, way, old, new):
    """What is left of a write of new bytes over old ones."""
    if way == 'new':
        return new
    noise = draw.randbytes(len(new))
    if way == 'noise':
        return noise
    size = draw.choice([1, 64, 512])
    parts = []
    for at in range(0, len(new), size):
        parts.append(draw.choice([old, new, noise])[at:at + size])
    return b''.join(parts)


class Power:
    """What the events so far left behind: the disks of a folder, and what was answered."""

    def __init__(self, folder):
        self.folder = os.path.realpath(folder)
        self.disks = {}
        self.answers = b''
        self.has_folder = True

    def take(self, event):
        if makes_file(event) and os.path.dirname(event.path) == self.folder:
            self.disks.setdefault(os.path.basename(event.path), Disk())
        elif event.kind == 'M' and event.result == 0 and event.path == self.folder:
            self.has_folder = False
        elif event.kind == 'W' and event.path == 'answers' and event.result > 0:
            self.answers += event.data[:event.result]
        elif event.kind in 'PDF' and os.path.dirname(event.path) == self.folder:
            disk = self.disks[os.path.basename(event.path)]
            if event.kind == 'P':
                disk.pending.append((event.at, event.data))
            else:
                disk.sync(event.result == 0)
        elif is_sync(event) and event.path == self.folder:
            for disk in self.disks.values():
                disk.has_entry = True
        elif is_sync(event) and event.path == os.path.dirname(self.folder):
            self.has_folder = True

    def left(self, draw, how):
        """The disks that a power loss may leave now, by their names; without its entry a disk may be gone, and with its folder each."""
        if not self.has_folder and draw.random() < 0.5:
            return {}
        return {
            name: disk.left(draw, how) for name, disk in self.disks.items() if disk.has_entry or draw.random() < 0.5
        }
