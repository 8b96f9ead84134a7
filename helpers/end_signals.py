"""The signals that end a helper, which first removes what isn't whole. `pnmpipe-files` and `pnmpipe-split` use it."""

import contextlib
import os
import signal

SIGNALS = (signal.SIGHUP, signal.SIGINT, signal.SIGTERM)


def heed(handler):
    """Hands them to a handler, but for those that are ignored, as nohup(1) has HUP."""
    for number in SIGNALS:
        if signal.getsignal(number) != signal.SIG_IGN:
            signal.signal(number, handler)


@contextlib.contextmanager
def held_back():
    """Holds them back while something is made and noted, so that what was made is known when one comes."""
    before = signal.pthread_sigmask(signal.SIG_BLOCK, SIGNALS)
    try:
        yield
    finally:
        signal.pthread_sigmask(signal.SIG_SETMASK, before)


def end_by(number):
    """Ends this process by a signal, which whoever started it sees."""
    signal.signal(number, signal.SIG_DFL)
    os.kill(os.getpid(), number)
