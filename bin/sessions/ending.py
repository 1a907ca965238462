"""How a signal ends the programs of bin/: at once and without a word, but never while they write a file."""
import signal

SIGNALS = (signal.SIGHUP, signal.SIGINT, signal.SIGTERM)


def by_signals():
    """From here on an interrupt ends the program by itself, as other signals do, and not by python's exception with its traceback. A program
    that wants it earlier does the same before its first import."""
    if signal.getsignal(signal.SIGINT) is signal.default_int_handler:
        signal.signal(signal.SIGINT, signal.SIG_DFL)


class Later:
    """With this, a signal that comes ends the program only after what is done here."""

    def __enter__(self):
        self.former = signal.pthread_sigmask(signal.SIG_BLOCK, SIGNALS)

    def __exit__(self, *_):
        signal.pthread_sigmask(signal.SIG_SETMASK, self.former)
