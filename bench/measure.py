"""What the measuring scripts share: the time and the memory that a command takes, and rows of a table."""
import os
import shutil
import subprocess
import sys
import time
from collections import namedtuple

Taken = namedtuple("Taken", "seconds processor memory")


def run(words, out=subprocess.DEVNULL):
    """The seconds that a command takes by the clock and of processors, and its greatest memory in bytes."""
    begin = time.monotonic()
    child = subprocess.Popen(words, stdout=out, stderr=subprocess.DEVNULL)
    _, status, usage = os.wait4(child.pid, 0)
    if status:
        sys.exit(f"{' '.join(words)}: status {os.waitstatus_to_exitcode(status)}")
    return Taken(time.monotonic() - begin, usage.ru_utime + usage.ru_stime, usage.ru_maxrss * 1024)


def run_into_pipe(words):
    """The same of a command whose output another one takes."""
    taker = subprocess.Popen(["cat"], stdin=subprocess.PIPE, stdout=subprocess.DEVNULL)
    taken = run(words, taker.stdin)
    taker.communicate()
    return taken


def best(runs):
    return Taken(*(min(column) for column in zip(*(taken[:2] for taken in runs))), max(taken.memory for taken in runs))


def best_in_turn(*commands):
    """The best of five runs of each, one after another, so that a slow minute of the machine is not one command's alone."""
    turns = [[command() for command in commands] for _ in range(5)]
    return [best(runs) for runs in zip(*turns)]


def builds(source, program):
    """Builds a program of Rust. Whether there is a `rustc` for it."""
    if not shutil.which("rustc"):
        return False
    subprocess.run(["rustc", "--edition", "2021", "-O", "-o", program, source], check=True)
    return True


def head(*names):
    row(*names)
    print("|---" * len(names) + "|")


def row(*cells):
    print("| " + " | ".join(cells) + " |", flush=True)


def seconds(*values):
    return [f"{value:.3f} s" for value in values]
