"""Runs the built rehearsal program, or another, on a session's bytes, read whole or in pieces that are cut exactly where a test
says."""
import fcntl
import os
import pathlib
import struct
import subprocess
import sys
import tempfile
import termios

ROOT = pathlib.Path(__file__).resolve().parent.parent
PROGRAM = ROOT / "target" / "bin" / "rehearse"
X86 = ROOT / "tests" / "x86"  # runs a built program on any machine


def build(program):
    """Proves and builds a program where something that it is made from has changed; half a second where nothing has."""
    subprocess.run([ROOT / "doors" / "build", program.name], stdin=subprocess.DEVNULL, stdout=sys.stderr, check=True)


class Counts:
    """Passed and failed comparisons of a part of the tests; finish() ends the part with its last line."""

    def __init__(self, name, program=PROGRAM):
        self.name = name
        self.program = program
        self.passed = 0
        self.failed = 0

    def same(self, what, expected, actual):
        """Compares two lists of bytes and says where they first differ."""
        if expected == actual:
            self.passed += 1
            return
        self.failed += 1
        print("%s: %s differs" % (self.name, what))
        wanted, given = expected.split(b"\n"), actual.split(b"\n")
        for line, (want, have) in enumerate(zip(wanted + [b"(end)"], given + [b"(end)"]), 1):
            if want != have:
                print("  line %d: expected %r, got %r" % (line, want, have))
                break

    def answers(self, what, session, expected, lengths=None):
        """Runs the program on a session: its replies, nothing on standard error, exit status 0; all in one comparison."""
        output, errors, status = run(session, lengths, self.program)
        if status != 0 or errors:
            output += b"(exit status %d, standard error %r)" % (status, errors)
        self.same(what, expected, output)

    def finish(self):
        """The last line, and the exit status."""
        print("%d passed, %d failed" % (self.passed, self.failed))
        sys.exit(1 if self.failed else 0)


def waiting(pipe):
    """How many bytes stand in a pipe, unread."""
    return struct.unpack("i", fcntl.ioctl(pipe, termios.FIONREAD, b"\0\0\0\0"))[0]


def pieces(session, lengths):
    """The session cut into pieces of these lengths, an iterator; the last piece may be shorter."""
    start = 0
    while start < len(session):
        end = start + next(lengths)
        yield session[start:end]
        start = end


def feed(process, session, lengths):
    """Writes piece after piece, each when the one before has been read: so every read of the program gets one piece. Stops
    where the program has ended too soon; its replies then show it."""
    pipe = process.stdin.fileno()
    for piece in pieces(session, lengths):
        if process.poll() is not None:
            break
        os.write(pipe, piece)
        while waiting(pipe) > 0 and process.poll() is None:
            os.sched_yield()
    process.stdin.close()


def run(session, lengths=None, program=PROGRAM):
    """Output, errors and exit status for a session: read from a file, or through a pipe in pieces of these lengths."""
    with tempfile.TemporaryFile() as source, tempfile.TemporaryFile() as output, tempfile.TemporaryFile() as errors:
        if lengths is None:
            source.write(session)
            source.seek(0)
            status = subprocess.run([X86, program], stdin=source, stdout=output, stderr=errors).returncode
        else:
            process = subprocess.Popen([X86, program], stdin=subprocess.PIPE, stdout=output, stderr=errors)
            feed(process, session, lengths)
            status = process.wait()
        output.seek(0)
        errors.seek(0)
        return output.read(), errors.read(), status
