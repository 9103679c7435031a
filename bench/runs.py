"""Runs a program, and says what it said, how long it took and how much memory."""
import os
import re
import subprocess
import threading
import time
from dataclasses import dataclass

# seconds between two looks at the memory of a run
APART = 0.02
# the commands of `grouter` that are measured by its plain build
COMMANDS = ('judge', 'measure', 'route')
TOP = os.path.dirname(os.path.dirname(os.path.abspath(__file__)))


def built(name):
    """The program of this name, as the gate builds it."""
    return f'{TOP}/crates/{name}/out/{name}'


def plain_words(folder, first, words):
    """The words that start a program of the plain build in a folder: `grouter`, where the first one is a command, or `plain_route`,
    which tells the seconds of each stage."""
    programs = os.path.join(folder, 'target', 'release')
    if first in COMMANDS:
        return [os.path.join(programs, 'grouter'), first, *words]
    return [os.path.join(programs, 'plain_route'), first, '--timing', *words]


@dataclass
class Run:
    """One run: its status, what it printed, seconds on the clock and of the processor (in user mode, and in all), and its memory in MiB,
    the greatest that was seen by looks a fiftieth of a second apart."""
    status: int
    said: str
    clock: float
    user: float
    processor: float
    memory: float

    def named(self):
        """The lines of what was said, as names with their values."""
        return dict(line.split(' ', 1) for line in self.said.splitlines() if ' ' in line)


class Peak(threading.Thread):
    """Looks at the memory of a process until it is told that the process has ended."""

    def __init__(self, process):
        super().__init__(daemon=True)
        self.status, self.ended, self.kib = f'/proc/{process}/status', threading.Event(), 0

    def run(self):
        while not self.ended.wait(APART):
            with open(self.status, encoding='ascii') as file:
                found = re.search(r'VmHWM:\s+(\d+)', file.read())
            self.kib = int(found[1]) if found else self.kib

    def mebibytes(self):
        """The greatest that was seen, once the process has ended; before that it may still be read."""
        self.ended.set()
        self.join()
        return self.kib / 1024


def run(*words, parts=()):
    """Runs a program, to whose standard input the parts go. Lists of each size from 128 KiB on have pages of their own, so that memory
    is what is in use."""
    begin = time.monotonic()
    child = subprocess.Popen(words, stdin=subprocess.PIPE if parts else subprocess.DEVNULL, stdout=subprocess.PIPE,
                             env=dict(os.environ, MALLOC_MMAP_THRESHOLD_='131072'))
    peak = Peak(child.pid)
    peak.start()
    for part in parts:
        child.stdin.write(part)
    if parts:
        child.stdin.close()
    said = child.stdout.read().decode()
    memory = peak.mebibytes()
    _, status, used = os.wait4(child.pid, 0)
    clock = time.monotonic() - begin
    child.returncode = os.waitstatus_to_exitcode(status)
    return Run(child.returncode, said, clock, used.ru_utime, used.ru_utime + used.ru_stime, memory)


def accepted(*words):
    """Runs a program that has to end with status 0."""
    done = run(*words)
    assert done.status == 0, f'status {done.status} of {" ".join(words)}: {done.said}'
    return done
