"""A script and the replies to it: its lines, what a program answers, and which replies belong to which line. For ./explain."""
import pathlib
import re
import subprocess

ROOT = pathlib.Path(__file__).resolve().parent.parent


class Failed(Exception):
    """Why there is nothing to show."""


def lines_of(script):
    """The script's lines as bytes with their newlines; a last one may have none."""
    return re.findall(rb"[^\n]*\n|[^\n]+\Z", script)


def ask(door, script):
    """The replies of a program, run by its door."""
    ran = subprocess.run([ROOT / door], input=script, stdout=subprocess.PIPE)
    if ran.returncode != 0:
        raise Failed("%s ended with %d" % (door, ran.returncode))
    return ran.stdout


def answered(lines, replies):
    """Each line with its replies: trades or listed prices, and then the one reply that is neither; behind a screen its prices."""
    rest = replies.decode("ascii").splitlines()
    at = 0
    for line in lines:
        end = at
        while end < len(rest) and rest[end][0] in "ML":
            end += 1
        end += 1
        while end < len(rest) and rest[end][0] in "+-":
            end += 1
        yield line, rest[at:end]
        at = end


def talk(lines):
    """Lines, asked of ./floor, each with its replies."""
    return list(answered(lines, ask("floor", b"".join(lines))))
