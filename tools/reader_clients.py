"""Random readers of a run, `--reader ASKS REPLIES`, and the clients that ask by them.

tools/live-runs.py takes this. A reader is a list of lines, each with what it is: `("ask", ASK)`,
`("fault", TEXT)`, `("none",)` for a blank line or a comment, or `("end",)`; and a way:

- `file`: both are files;
- `held`: both are named pipes, and each end is held open until the run has ended;
- `client`: a client opens both pipes, and closes the asks behind its last line;
- `leaves`: a client goes away after its first reply, and then asks once more.

A client writes its lines at random moments. Sometimes it waits for a reply before it goes on.
"""
import os
import random
import select
import threading
import time

# lines of which no reader takes an ask, and how they are answered
FAULTY = [
    (b"nonsense", "shape"), (b"session", "shape"), (b"count", "shape"), (b"count q0 x", "shape"),
    (b"end now", "shape"), (b"wait", "shape"), (b"x" * 1024, "shape"), (b"stats q0", "shape"),
    (b"count q9", "unknown query"), (b"pair q9 x y", "unknown query"),
    (b"to Q0 x", "unknown query"), (b"wait x", "number"), (b"wait -1", "number"), (b"wait 4611686018427387904", "number"),
    (b"from q0 x\x01", "bad name"), (b"to q0 " + b"x" * 256, "bad name"),
    (b"pair q0 x \x7f", "bad name"), (b"x" * 1025, "too long"), (b"#" * 4000, "too long"),
    (b"count q0" + b" " * 1020, "too long"),
]
NOTHING = [b"", b"   ", b"\t", b"# end", b" # count q0", b"#" * 1024]
ENDS = [b"end", b"\tend  "]


def random_line(rng, asked):
    """A line, without its end, and what it is. `asked` makes a random ask."""
    kind = rng.random()
    if kind < 0.12:
        line, text = rng.choice(FAULTY)
        return line, ("fault", text)
    if kind < 0.22:
        return rng.choice(NOTHING), ("none",)
    ask = asked()
    return rng.choice([b" ", b" ", b"\t", b"  "]).join(word.encode() for word in ask), ("ask", ask)


def random_reader(rng, asked):
    way = rng.choice(["file", "held", "held", "client", "client", "leaves"])
    if way == "leaves":
        return {"way": way, "lines": [(b"clock\n", ("ask", ("clock",)))]}
    lines = [random_line(rng, asked) for _ in range(rng.randrange(9))]
    if way == "held" or rng.random() < 0.4:
        lines.append((rng.choice(ENDS), ("end",)))
        # nobody reads what comes behind it
        lines += [random_line(rng, asked) for _ in range(rng.randrange(3))]
    # of the longest lines a CR would make ones that are too long
    lines = [(line + rng.choice([b"\n", b"\n", b"\r\n" if len(line) < 1024 else b"\n"]), item)
             for line, item in lines]
    if lines and way != "held" and rng.random() < 0.3:
        # a last line needs no LF
        line, item = lines[-1]
        lines[-1] = (line.rstrip(b"\r\n"), item)
    return {"way": way, "lines": lines}


class Client:
    """One who asks by a reader whose files are in a folder, and keeps the replies."""

    def __init__(self, folder, number, reader, is_to_begin, seed):
        self.asks = os.path.join(folder, "asks%d" % number)
        self.replies = os.path.join(folder, "replies%d" % number)
        self.words = ["--reader", "asks%d" % number, "replies%d" % number]
        self.reader, self.rng, self.text = reader, random.Random(seed), b""
        self.thread, self.has_ended, self.is_cut = None, threading.Event(), False
        if reader["way"] == "file" or not is_to_begin:
            with open(self.asks, "wb") as out:
                out.write(b"".join(line for line, _ in reader["lines"]))
            return
        os.mkfifo(self.asks)
        os.mkfifo(self.replies)
        if reader["way"] == "held":
            self.held = (os.open(self.asks, os.O_RDWR), os.open(self.replies, os.O_RDWR))
        self.thread = threading.Thread(target=self.run, daemon=True)
        self.thread.start()

    def run(self):
        way = self.reader["way"]
        if way == "held":
            asks, replies = self.held
        else:
            # rpq opens the asks of all readers first
            asks, replies = os.open(self.asks, os.O_WRONLY), os.open(self.replies, os.O_RDONLY)
        self.ask(asks, replies)
        if way == "leaves":
            while b"\n" not in self.text and self.read(replies, 30):
                pass
            os.close(replies)
            os.write(asks, b"clock\n")
        elif way == "client":
            os.close(asks)
            while self.read(replies, 60):
                pass
            os.close(replies)
            return
        self.has_ended.wait(60)
        if way == "held":
            while self.read(replies, 0):
                pass
            os.close(replies)
        os.close(asks)

    def ask(self, asks, replies):
        """Writes the lines, and waits now and then for what is told meanwhile."""
        is_read = True
        for line, item in self.reader["lines"]:
            if self.rng.random() < 0.6:
                time.sleep(self.rng.random() / 100)
            try:
                os.write(asks, line)
            except BrokenPipeError:
                # so it may be behind the line `end`, once the run has ended
                self.is_cut = is_read
                return
            if is_read and item[0] in ("ask", "fault", "end") and self.rng.random() < 0.5:
                self.read(replies, 30)
            is_read = is_read and item[0] != "end"

    def read(self, replies, seconds):
        """Takes what is there of the replies within these seconds, and says whether that is any."""
        ready, _, _ = select.select([replies], [], [], seconds)
        piece = os.read(replies, 1 << 16) if ready else b""
        self.text += piece
        return piece != b""

    def replies_at_end(self):
        """The text of the replies, once the run has ended, or none if there is no file of them."""
        self.has_ended.set()
        if self.thread is not None:
            self.thread.join(30)
            if self.is_cut or self.thread.is_alive():
                return None
            return self.text.decode("utf-8", "surrogateescape")
        if not os.path.exists(self.replies):
            return None
        with open(self.replies, encoding="utf-8", errors="surrogateescape") as text:
            return text.read()
