#!/usr/bin/env python3
"""Asks a reader of a running rpq, and prints what it is answered with.

    ask.py ASKS REPLIES count through    one ask
    ask.py ASKS REPLIES < FILE           each line is an ask

ASKS and REPLIES are the named pipes of one `--reader` of rpq. Somebody holds them open meanwhile,
as examples/serve.sh does. Clients of one reader wait for each other. What a client left behind that
went away before its reply came is passed over.

Of the lines of standard input, blank ones and comments are left out, and the line `end` ends this
program, not the reader: the words `ASKS REPLIES end` end the reader.

The status is 0 if each ask had its reply, 1 if one was answered with an error, and 2 if the words
or the pipes can't be used, or no reply came in time.
"""
import argparse
import collections
import errno
import fcntl
import os
import re
import select
import signal
import stat
import sys
import time

# asks whose reply has as many further lines as the last field of its first line says
WITH_LINES = {"answers", "from", "ends", "to", "stats"}
STATS = re.compile(rb"@\d+ stats \d+")


class Fault(Exception):
    """Why there is no reply."""


def parsed_words():
    parser = argparse.ArgumentParser(
        description=__doc__, formatter_class=argparse.RawDescriptionHelpFormatter
    )
    add = parser.add_argument
    add(
        "--seconds",
        type=float,
        default=60,
        metavar="N",
        help="how long a reply is waited for (60)",
    )
    add("asks", metavar="ASKS", help="the pipe that rpq reads")
    add("replies", metavar="REPLIES", help="the pipe that rpq writes")
    add("ask", nargs=argparse.REMAINDER, metavar="WORD", help="the ask")
    return parser.parse_args()


def opened(name, flags):
    """The pipe of this name, opened without waiting for its other end."""
    try:
        pipe = os.open(name, flags | os.O_NONBLOCK)
    except OSError as error:
        nobody = "nobody reads it: does rpq run?"
        raise Fault(f"{name}: {nobody if error.errno == errno.ENXIO else error.strerror}") from None
    if not stat.S_ISFIFO(os.fstat(pipe).st_mode):
        raise Fault(f"{name}: no named pipe")
    return pipe


class Reader:
    """The pipes of a reader, and what of its replies was read and not yet looked at."""

    def __init__(self, asks, replies, seconds):
        self.asks = opened(asks, os.O_WRONLY)
        self.replies = opened(replies, os.O_RDONLY)
        self.seconds = seconds
        self.until = 0
        self.lines = collections.deque()
        self.rest = b""

    def ask(self, ask):
        """Asks, and gives the lines of the reply. Meanwhile no other client asks this reader."""
        self.until = time.monotonic() + self.seconds
        self.lock()
        try:
            self.pass_over_what_is_left()
            self.send(ask)
            yield from self.reply()
        finally:
            fcntl.flock(self.asks, fcntl.LOCK_UN)

    def lock(self):
        while True:
            try:
                fcntl.flock(self.asks, fcntl.LOCK_EX | fcntl.LOCK_NB)
                return
            except BlockingIOError:
                if time.monotonic() > self.until:
                    raise Fault("other clients ask this reader") from None
                time.sleep(0.01)

    def pass_over_what_is_left(self):
        """Asks for a pair that nobody else asks for, and reads on up to the reply to that."""
        self.send(b"stats")
        while not STATS.fullmatch(self.line()):
            pass
        query = self.line().split(b" ")[0]
        own = b"rpq-ask:%d:%d" % (os.getpid(), time.time_ns())
        pair = b"pair %s %s %s" % (query, own, own)
        self.send(pair)
        while not self.line().endswith(b" " + pair + b" no"):
            pass

    def send(self, ask):
        left = ask + b"\n"
        while left:
            self.wait_for([], [self.asks])
            left = left[os.write(self.asks, left) :]

    def reply(self):
        first = self.line()
        yield first
        fields = first.decode("utf-8", "surrogateescape").split(" ")
        if first.startswith(b"@") and fields[1] in WITH_LINES:
            for _ in range(int(fields[-1])):
                yield self.line()

    def line(self):
        """The next line of the replies."""
        while not self.lines:
            self.wait_for([self.replies], [])
            piece = os.read(self.replies, 1 << 16)
            if not piece:
                raise Fault("no reply: the run has ended")
            *whole, self.rest = (self.rest + piece).split(b"\n")
            self.lines.extend(whole)
        return self.lines.popleft()

    def wait_for(self, read, write):
        seconds = max(0, self.until - time.monotonic())
        if not any(select.select(read, write, [], seconds)):
            raise Fault(f"no reply within {self.seconds:g} seconds")


def asks_of(words):
    """The one ask of the words, or else those of standard input, up to the line `end`."""
    # an ask is one line, whatever the words have in them
    one = os.fsencode(" ".join(" ".join(words).split("\n")))
    for line in [one] if words else sys.stdin.buffer:
        ask = line.strip(b" \t\r\n")
        if ask == b"end" and not words:
            return
        # blank lines and comments ask nothing
        if ask and not ask.startswith(b"#"):
            yield ask


def main():
    # a reader that ends, such as head, ends this program too
    signal.signal(signal.SIGPIPE, signal.SIG_DFL)
    words = parsed_words()
    status = 0
    try:
        reader = Reader(words.asks, words.replies, words.seconds)
        for ask in asks_of(words.ask):
            for line in reader.ask(ask):
                status = 1 if line.startswith(b"error line ") else status
                sys.stdout.buffer.write(line + b"\n")
            sys.stdout.flush()
    except Fault as fault:
        sys.stdout.flush()
        print(f"rpq-ask: {fault}", file=sys.stderr)
        return 2
    return status


if __name__ == "__main__":
    sys.exit(main())
