#!/usr/bin/env python3
"""How `route` behaves at its edges: arguments, a terminal, and streams that fail.

    python3 tools/manners.py        runs crates/route/out/route, prints one line, and ends with status 1 at the first surprise

Each case says what is on standard output and on standard error, and with which status the program ends. A stream is closed,
full, a directory, a terminal, or a pipe whose reader is slow or gone.
"""

from __future__ import annotations

import fcntl
import os
import pty
import signal
import subprocess
import sys
import tempfile
import threading
from pathlib import Path

ROOT = Path(__file__).resolve().parent.parent
PROGRAM = ROOT / "crates/route/out/route"
VERSION = (ROOT / "VERSION").read_text().strip()
SAMPLE = ROOT / "tickets/sample.ticket"
ANSWER = (ROOT / "tickets/sample.answer").read_bytes()

# The answer to a ticket of no bytes.
EMPTY = b"(refused ticket 2 0 0)\n"

USAGE = b"route: usage: route < TICKET, with no argument but --help or --version\n"
HINT = b"route: reading a ticket from the terminal; end it by Ctrl-D on a line of its own\n"

# A pipe that holds no more has to be emptied before the long answer is out.
PIPE_BYTES = 4096

SECONDS = 20

checked = 0


def hold(name, expected, found):
    global checked
    if expected != found:
        sys.exit(f"manners: {name}\n  expected {str(expected)[:400]}\n  found    {str(found)[:400]}")
    checked += 1


def failed(doing, why, number):
    return f"route: cannot {doing}: {why} (os error {number})\n".encode()


def long_ticket():
    """A row of as many formats as there may be, and as many legs from its first to its last, with the answer."""
    formats = range(64)
    lines = ["(bay depth 64)"]
    lines += [f"(format {k} F{k:03})" for k in formats]
    lines += [f"(card ({k} {k + 1}) 8)" for k in formats[:-1]]
    lines += ["(leg (0 63))"] * 32 + ["(end)"]
    chain = " ".join(f"F{k:03}" for k in formats)
    answer = [f"(leg {leg} (0 63) 8 ({chain}))" for leg in range(32)] + ["(end)"]
    return ["".join(line + "\n" for line in part).encode() for part in (lines, answer)]


def run(words=(), text=None, stdin=None, stdout=subprocess.PIPE, stderr=subprocess.PIPE, closed=(), ignored=True):
    """Runs the program, with the file descriptors of `closed` closed, and SIGPIPE ignored or left to its default."""

    def prepare():
        signal.signal(signal.SIGPIPE, signal.SIG_IGN if ignored else signal.SIG_DFL)
        for descriptor in closed:
            os.close(descriptor)

    given = {"input": text} if text is not None else {"stdin": stdin or subprocess.DEVNULL}
    return subprocess.run(
        [PROGRAM, *words], **given, stdout=stdout, stderr=stderr, preexec_fn=prepare, restore_signals=False, timeout=SECONDS
    )


def told(process):
    return process.returncode, process.stdout, process.stderr


def arguments():
    with open(SAMPLE, "rb") as ticket:
        hold("no argument", (0, ANSWER, b""), told(run(stdin=ticket)))
    hold("a refusal", (0, EMPTY, b""), told(run(text=b"")))
    for words in (
        ["x"],
        [""],
        ["-"],
        ["--"],
        ["-h"],
        ["-V"],
        ["--hel"],
        ["--helping"],
        ["--help="],
        ["--Version"],
        ["--versions"],
        [str(SAMPLE)],
        [b"\xff\xfe"],
        ["-" * 15],
        ["-" * 16],
        ["-" * 17],
        ["x" * 100_000],
        ["--help", ""],
        ["--help", "--help"],
        ["--version", "3"],
        ["--version", "x" * 100_000],
        ["x", "--help"],
        ["", ""],
    ):
        with open(SAMPLE, "rb") as ticket:
            hold(f"arguments {str(words)[:40]}", (2, b"", USAGE), told(run(words, stdin=ticket)))
            hold("the ticket is left unread", 0, os.lseek(ticket.fileno(), 0, os.SEEK_CUR))
    hold("--version", (0, f"route {VERSION}\n".encode(), b""), told(run(["--version"])))
    help_text = run(["--help"])
    hold("--help", (0, b""), (help_text.returncode, help_text.stderr))
    for word in (b"usage: route < TICKET\n", b"--version", b"Status: 0", b"also where the ticket was refused"):
        hold(f"--help says {word}", True, word in help_text.stdout)


def terminal():
    """A ticket that is typed: the hint comes first, then it is read to the end of the input."""
    for text, answer in ((SAMPLE.read_bytes(), ANSWER), (b"", EMPTY)):
        keyboard, line = pty.openpty()
        process = subprocess.Popen([PROGRAM], stdin=line, stdout=subprocess.PIPE, stderr=subprocess.PIPE)
        os.close(line)
        hold("the hint, before anything is typed", HINT, process.stderr.readline())
        os.write(keyboard, text + b"\x04")
        said, complaints = process.communicate(timeout=SECONDS)
        os.close(keyboard)
        hold("a ticket that is typed", (0, answer, b""), (process.returncode, said, complaints))
    keyboard, line = pty.openpty()
    hold("an argument at a terminal", (2, b"", USAGE), told(run(["x"], stdin=line)))
    hold("--version at a terminal", (0, b""), told(run(["--version"], stdin=line))[::2])
    os.close(keyboard)
    os.close(line)


def inputs():
    folder = os.open("/", os.O_RDONLY)
    hold("a directory", (1, b"", failed("read the ticket", "Is a directory", 21)), told(run(stdin=folder)))
    os.close(folder)
    wrong = failed("read the ticket", "Bad file descriptor", 9)
    hold("a closed input", (1, b"", wrong), told(run(closed=[0])))
    with tempfile.TemporaryFile("wb") as file:
        only = os.open(f"/proc/self/fd/{file.fileno()}", os.O_WRONLY)
        hold("an input for writing only", (1, b"", wrong), told(run(stdin=only)))
        os.close(only)


def outputs():
    sample = SAMPLE.read_bytes()
    for words, what in (([], "answer"), (["--help"], "help"), (["--version"], "version")):
        with open("/dev/full", "wb") as full:
            expected = (1, None, failed(f"print the {what}", "No space left on device", 28))
            hold(f"a full disk for the {what}", expected, told(run(words, text=sample, stdout=full)))
        expected = (1, None, failed(f"print the {what}", "Bad file descriptor", 9))
        hold(f"a closed output for the {what}", expected, told(run(words, text=sample, stdout=None, closed=[1])))
        for ignored in (True, False):
            ours, theirs = os.pipe()
            os.close(ours)
            expected = (1, None, failed(f"print the {what}", "Broken pipe", 32))
            hold(f"no reader of the {what}", expected, told(run(words, text=sample, stdout=theirs, ignored=ignored)))
            os.close(theirs)


def complaints():
    """What cannot be told on standard error is told by the status."""
    for closed in (True, False):
        with open("/dev/full", "wb") as full:
            stream = {"stderr": None, "closed": [2]} if closed else {"stderr": full}
            hold("an unknown argument", (2, b""), told(run(["x"], **stream))[:2])
            hold("an answer", (0, ANSWER), told(run(text=SAMPLE.read_bytes(), **stream))[:2])
            folder = os.open("/", os.O_RDONLY)
            hold("a directory", (1, b""), told(run(stdin=folder, **stream))[:2])
            os.close(folder)
    hold("all streams closed", 1, run(stdout=None, stderr=None, closed=[0, 1, 2]).returncode)


def read_by(text, stays):
    """Runs the program with a small pipe for its output, of which a reader takes a hundred bytes at a time, or only once."""
    ours, theirs = os.pipe()
    fcntl.fcntl(theirs, fcntl.F_SETPIPE_SZ, PIPE_BYTES)
    taken = bytearray()

    def take():
        while piece := os.read(ours, 100):
            taken.extend(piece)
            if not stays:
                break
        os.close(ours)

    reader = threading.Thread(target=take)
    reader.start()
    process = run(text=text, stdout=theirs)
    os.close(theirs)
    reader.join()
    return process.returncode, bytes(taken), process.stderr


def readers():
    ticket, answer = long_ticket()
    hold("the answer is longer than the pipe", True, len(answer) > 2 * PIPE_BYTES)
    hold("a slow reader", (0, answer, b""), read_by(ticket, stays=True))
    broken = failed("print the answer", "Broken pipe", 32)
    hold("a reader that goes", (1, answer[:100], broken), read_by(ticket, stays=False))


if __name__ == "__main__":
    arguments()
    terminal()
    inputs()
    outputs()
    complaints()
    readers()
    print(f"manners: {checked} held")
