"""Work with code that may crash, in a process of its own."""

import contextlib
import mmap
import os
import signal
import sys

from egasim_tools.base.tool import fail, guarded

MOST = 200  # bytes of what the child is at


def in_child(work):
    """Does work(says) in a child process. What it says last before it begins something is told if that ends the child:
    says("") stands for nothing. If the child itself ends with a note, this process ends with the same status."""
    board = mmap.mmap(-1, MOST)
    child = os.fork()
    if child == 0:
        status = 1
        try:
            status = status_of(lambda: work(lambda text: put(board, text)), board)
        finally:
            os._exit(status)
    try:
        ended = os.waitstatus_to_exitcode(os.waitpid(child, 0)[1])
    except BaseException:
        with contextlib.suppress(ProcessLookupError):
            os.kill(child, signal.SIGKILL)
        raise
    at = board[:].rstrip(b"\0").decode(errors="replace")
    if ended < 0:
        fail(f"{at or 'the work'} crashed: signal {-ended}, {signal.strsignal(-ended)}")
    if at:
        fail(f"{at} ended the process, with the status {ended}")
    if ended:
        sys.exit(ended)


def put(board, text):
    content = text.encode()[:MOST]
    board[:] = content + bytes(MOST - len(content))


def status_of(work, board):
    """The status with which a child ends. What it ends with is told here, since `sys.exit` would clean up as the parent."""
    try:
        guarded(work)
        return 0
    except SystemExit as end:
        if isinstance(end.code, str):
            print(end.code, file=sys.stderr, flush=True)
        put(board, "")
        return end.code if isinstance(end.code, int) else 1
