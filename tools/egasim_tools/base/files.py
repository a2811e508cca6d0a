"""Files as the tools read them: whole, within bounds, and never a device or a pipe. And as they write them: under
another name until they are whole, so that whoever reads meanwhile has the old file or the new one."""

import contextlib
import errno
import fcntl
import hashlib
import os
import re
import shutil
import stat
import sys
import tempfile

from egasim_tools.base.tool import TOOL, as_noted, fail

TOOLS = os.path.dirname(os.path.dirname(os.path.dirname(os.path.realpath(__file__))))
TOP = os.path.dirname(TOOLS)
MOST_BYTES = 1 << 28  # of a file that a tool reads
PREFIX, PART = ".egasim-", re.compile(r"\.egasim-[a-z0-9_]{8}")  # of what a tool writes until it has its name


# Read


def read(name):
    """The bytes of a file. A folder, a device or a pipe, which may have no end, is refused."""
    try:
        with open(os.open(name, os.O_RDONLY | os.O_NONBLOCK | os.O_CLOEXEC), "rb") as file:
            if not stat.S_ISREG(os.fstat(file.fileno()).st_mode):
                fail(f"{name} is no file")
            return within_bounds(name, file)
    except (OSError, ValueError) as error:
        fail(f"cannot read {name}: {getattr(error, 'strerror', 'no file has such a name')}")


def within_bounds(name, file):
    """All bytes of an open file, unless there are too many."""
    content = file.read(MOST_BYTES + 1)
    return content if len(content) <= MOST_BYTES else fail(f"{name}: longer than {MOST_BYTES} bytes")


def text_in(name, content):
    """The text that these bytes of a file are, without a byte order mark."""
    try:
        return content.decode().removeprefix("\ufeff")
    except UnicodeDecodeError:
        fail(f"{name} isn't UTF-8")


def text_of(name):
    """The text of a file."""
    return text_in(name, read(name))


def text_on_standard_input():
    if sys.stdin is None:
        fail("standard input is closed")
    return text_in("standard input", within_bounds("standard input", sys.stdin.buffer))


def sum_of(content):
    return hashlib.sha256(content).hexdigest()


def sum_of_file(name):
    """The checksum of a file of any length."""
    with open(name, "rb") as file:
        return hashlib.file_digest(file, "sha256").hexdigest()


# Written


def refuse_input(output, inputs):
    """Fails where an output would stand in the place of one of the files that are read, also by another name or link."""
    for name in inputs:
        if os.path.exists(output) and os.path.exists(name) and os.path.samefile(output, name):
            fail(f"{output} would be written over, and is read{'' if name == output else f' as {name}'}")


def write(name, content, mode=None):
    """Writes a file whole, as `written` does."""
    with written(name, mode) as file:
        file.write(content)


@contextlib.contextmanager
def written(name, mode=None):
    """A file to write bytes to, which gets the name when all is written and on the disk. It takes over owner, group and
    mode of the file that it replaces; a new one has what the system gives. With `mode` it has that, and is the caller's."""
    try:
        old = replaceable(name)
        handle, part = locked_part(os.path.dirname(os.path.abspath(name)), tempfile.mkstemp)
    except OSError as error:
        fail(f"cannot write {name}: {error.strerror}")
    try:
        with os.fdopen(handle, "wb") as file:
            yield file
            file.flush()
            if mode is None:
                take_over(handle, old)
            else:
                os.fchmod(handle, mode)
            os.fsync(handle)
            os.replace(part, name)
    except OSError as error:
        if error.filename not in (None, name, part):  # of what the caller reads meanwhile
            raise
        fail(f"cannot write {name}: {error.strerror}")
    finally:
        undisturbed(remove, part)


def renamed(path, target):
    """Whether a folder has got its name, which nothing had before; two calls may try at once."""
    if os.path.lexists(target):
        return False
    try:
        os.rename(path, target)
    except OSError as error:
        if error.errno not in (errno.EEXIST, errno.ENOTEMPTY, errno.ENOTDIR):
            raise
        return False
    return True


def replaceable(name):
    """The status of the file that another one is to replace, or None where there is none."""
    try:
        old = os.lstat(name)
    except FileNotFoundError:
        return None
    if not stat.S_ISREG(old.st_mode) and not stat.S_ISLNK(old.st_mode):
        fail(f"cannot write {name}: it is no file")
    if stat.S_ISREG(old.st_mode) and not os.access(name, os.W_OK):
        fail(f"cannot write {name}: its mode doesn't allow that")
    return old


def take_over(handle, old):
    """Gives an open file owner, group and mode of an old one, or of a new one where there is none."""
    if old is None or not stat.S_ISREG(old.st_mode):
        os.fchmod(handle, 0o666 & ~mask())
        return
    new = os.fstat(handle)
    if (old.st_uid, old.st_gid) != (new.st_uid, new.st_gid):
        try:
            os.fchown(handle, old.st_uid, old.st_gid)
        except OSError as error:
            raise OSError(error.errno, "its owner and group can't be kept") from error
    os.fchmod(handle, stat.S_IMODE(old.st_mode))  # behind the owner, which may take rights away


def mask():
    """The permissions that new files of this process don't get."""
    now = os.umask(0o077)
    os.umask(now)
    return now


@contextlib.contextmanager
def room_in(folder):
    """A folder of the tool's own within another one, which is removed in the end."""
    handle, room = locked_part(folder, make_folder)
    try:
        yield room
    finally:
        undisturbed(shutil.rmtree, room, ignore_errors=True)
        os.close(handle)


def undisturbed(removes, *what, **how):
    """Removes something, and does so once more where a signal that ends the tool comes meanwhile; no second one does."""
    try:
        removes(*what, **how)
    except SystemExit:
        removes(*what, **how)
        raise


def remove(path):
    with contextlib.suppress(FileNotFoundError):
        os.unlink(path)


def make_folder(**where):
    while True:
        room = tempfile.mkdtemp(**where)
        with contextlib.suppress(FileNotFoundError):  # another call has taken it for what a killed one left
            return os.open(room, os.O_RDONLY | os.O_DIRECTORY | os.O_CLOEXEC), room


def locked_part(folder, make):
    """Makes a file or a folder within a folder, and locks it as long as it is open: (handle, path). What killed tools have
    left there, which nobody locks any more, is removed first."""
    remove_left(folder)
    while True:
        handle, part = make(dir=folder, prefix=PREFIX)
        if lock(handle) is not False and os.path.lexists(part):
            return handle, part
        os.close(handle)


def lock(handle):
    """True if the lock of an open file is had now, False if somebody else has it, None if there are no locks here."""
    try:
        fcntl.flock(handle, fcntl.LOCK_EX | fcntl.LOCK_NB)
        return True
    except BlockingIOError:
        return False
    except OSError:
        return None


def remove_left(folder):
    """Removes what killed tools have left in a folder. Where nobody can tell who uses it, it is told."""
    try:
        names = sorted(filter(PART.fullmatch, os.listdir(folder)))
    except OSError:  # one may write to a folder that one can't list
        return
    for path in (os.path.join(folder, name) for name in names):
        try:
            handle = os.open(path, os.O_RDONLY | os.O_NONBLOCK | os.O_NOFOLLOW | os.O_CLOEXEC)
        except OSError:  # it is gone, or somebody else's
            continue
        is_left = lock(handle)
        if is_left and os.path.isdir(path):
            shutil.rmtree(path, ignore_errors=True)
        elif is_left:
            with contextlib.suppress(OSError):
                os.unlink(path)
        elif is_left is None:
            print(as_noted(f"{TOOL}: {path} was left by a call that was killed, unless one goes on"), file=sys.stderr)
        os.close(handle)
