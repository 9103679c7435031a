#!/usr/bin/env python3
"""Runs the built programs with each of their calls for memory refused in turn, and looks at the status and at all that is left.

    tests/program/refused_memory.py [--most N] [--only TEXT] [GROUTER [UNAVOIDABLE [REROUTE [CONGESTION_MAP]]]]

By hand, outside the gate: some fifteen minutes on a processor of its own; with --most 300 some five, and with --most 100000, where
each call of `trial` is refused alone too, an hour. Without words it takes the programs that `rt ci` left in crates/*/out; --only runs the lines alone that have TEXT in them. It wants `cc` and `nm`: tests/program/refuse_memory.c is
built, and preloaded into each run.

A line of the table below is first run whole, and then with its first call for memory refused, its second one, and so on, until a
run comes to its end without a refusal. That is done twice: the call alone is refused, and nothing stands under the names of the
outputs; and all later calls are refused too, and the outputs are files that were there before. Then the starts of threads are
refused in the same two ways. Where a line has more than N calls (3000 for both ways), the first and the last tenth of N are
refused, and others at equal distances. A line without outputs is run once for each way of refusing calls, and goes on in a process of
its own from each call that is refused; there all calls are refused with all later ones, and alone those at equal distances, at most N
for both ways. Of each run it is asked that

- it ends with 8, or with the status of the whole run, or with 7 where that is 0; by no signal, and within a minute (one that takes
  longer is named, and run once more);
- on 8 there is no output, or what was there before, and the report is `refused 8`. It may be empty only where there was no memory
  for the words, so in the first runs of a line and in no later one;
- on 7 each output has the front of its text, or is as it was, and none is begun before the one ahead of it is whole; the report
  is the front of `refused 7`, or where all outputs are whole that of the whole run's;
- on any other status report and outputs are those of the whole run;
- nothing is said on standard error, no input is changed, and no other file is there.

It prints for each line how many calls there are and how the runs ended, then the sums, and fails where a run failed. Of runs of a
line that fail alike the first one is named."""

import argparse
import collections
import itertools
import mmap
import os
import shutil
import struct
import subprocess
import sys
import tempfile

TOP = os.path.dirname(os.path.dirname(os.path.dirname(os.path.abspath(__file__))))
PROGRAMS = ["grouter", "unavoidable", "reroute", "congestion_map"]
# What a program may take memory by, of what it asks of the C library; the wrapper sees the first ones alone.
SEEN = {"malloc", "calloc", "realloc", "memalign", "aligned_alloc", "posix_memalign", "valloc"}
UNSEEN = {"mmap", "mmap64", "mremap", "brk", "sbrk", "pvalloc", "reallocarray", "strdup"}
SECONDS = 60
BEFORE = b"what was there before\n"

# The words of each line, and its outputs in the order in which they are made. Most take one worker, which writes
# the same each time; `climb` takes threads.
LINES = [
    ("grouter trial 7", []),
    ("grouter make out.gr --seed 7 --nets 20", ["out.gr"]),
    ("grouter route one_net.gr out.routes out.cert", ["out.routes", "out.cert"]),
    # the only net has the only route, so two workers write the same each time; each splits its share of the loads
    ("grouter route one_net.gr out.routes out.cert --workers 2", ["out.routes", "out.cert"]),
    # neither have its nets another one, and each is routed again in every round
    ("grouter route crowded.gr out.routes out.cert --workers 2", ["out.routes", "out.cert"]),
    ("grouter route detour.gr out.routes out.cert --phases 1", ["out.routes", "out.cert"]),
    ("grouter route three_layers.gr out.routes out.cert --budget 10", ["out.routes", "out.cert"]),
    ("grouter route few_exits.gr out.routes out.cert", ["out.routes", "out.cert"]),
    ("grouter measure few_exits.gr few_exits.routes", []),
    ("grouter judge few_exits.gr few_exits.routes few_exits.cert", []),
    ("grouter judge detour.gr detour.routes detour.cert", []),
    ("grouter eco detour.gr detour.routes detour.edits out.routes", ["out.routes"]),
    ("grouter climb few_exits.gr few_exits.routes few_exits.cert out.cert", ["out.cert"]),
    ("grouter guide detour.gr detour.routes out.guide", ["out.guide"]),
    ("unavoidable few_exits.gr few_exits.routes few_exits.cert out.cert", ["out.cert"]),
    ("unavoidable few_exits.gr few_exits.routes out.cert", ["out.cert"]),
    ("reroute few_exits.gr out.routes", ["out.routes"]),
    ("reroute few_exits.gr few_exits.routes out.routes --workers 4", ["out.routes"]),
    ("congestion_map few_exits.gr few_exits.routes out.svg --cut few_exits_cut.cert", ["out.svg"]),
    ("congestion_map few_exits.gr few_exits.routes out.csv --layers", ["out.csv"]),
    # runs that end with other statuses: want of memory turns none into another one
    ("grouter route few_exits.gr out.routes", []),
    ("grouter judge detour.gr cut_off.routes detour.cert", []),
    ("grouter judge detour.gr detour.routes overstated.cert", []),
    ("grouter route misspelled.gr out.routes out.cert", []),
    ("grouter judge detour.gr few_exits.cert detour.cert", []),
    ("grouter judge detour.gr detour.routes few_exits.routes", []),
    ("grouter route missing.gr out.routes out.cert", []),
    ("grouter eco detour.gr detour.routes wrong.edits out.routes", []),
    ("unavoidable detour.gr detour.routes overstated.cert out.cert", []),
    ("unavoidable detour.gr cut_off.routes out.cert", []),
    ("reroute detour.gr cut_off.routes out.routes", []),
    ("congestion_map detour.gr cut_off.routes out.csv", []),
]
KINDS = {"memory": ("REFUSE_CALL", "calls"), "threads": ("REFUSE_THREAD", "starts of threads")}

Run = collections.namedtuple("Run", "status said complained made calls threads refused")


def build(room):
    """The wrapper, built into the folder."""
    wrapper = os.path.join(room, "refuse_memory.so")
    subprocess.run(["cc", "-O2", "-shared", "-fPIC", "-o", wrapper, f"{TOP}/tests/program/refuse_memory.c"], check=True)
    return wrapper


def require_seen(program):
    """Fails where the program takes memory in a way that the wrapper doesn't see."""
    listed = subprocess.run(["nm", "-D", "--undefined-only", program], check=True, capture_output=True, text=True).stdout
    names = {line.split()[-1].split("@")[0] for line in listed.splitlines()}
    if names & UNSEEN or not names & SEEN:
        sys.exit(f"FAILED: {program} takes memory by {' '.join(sorted(names & UNSEEN)) or 'no call of the C library'}")


class Room:
    """A folder with the examples, in which one line is run again and again."""

    def __init__(self, room, programs):
        self.programs = programs
        self.files = os.path.join(room, "files")
        shutil.copytree(f"{TOP}/examples", self.files)
        with open(os.path.join(self.files, "wrong.edits"), "w", encoding="ascii") as edits:
            edits.write("edits 3 drop 1 drop 2 change 7 0 1")
        with open(os.path.join(self.files, "one_net.gr"), encoding="ascii") as text:
            header = text.read().partition("num net")[0]
        with open(os.path.join(self.files, "crowded.gr"), "w", encoding="ascii") as text:
            text.write(header + "num net 5\n" + "".join(f"n {net} 2 1\n5 5 1\n25 5 1\n" for net in range(5)) + "0\n")
        self.inputs = self.texts()
        self.tally = os.path.join(room, "tally")
        with open(self.tally, "wb") as tally:
            tally.write(bytes(32))
        with open(self.tally, "r+b") as tally:
            self.counts = mmap.mmap(tally.fileno(), 32)
        self.env = dict(os.environ, LD_PRELOAD=build(room), REFUSE_TALLY=self.tally)

    def texts(self):
        found = {}
        for entry in os.scandir(self.files):
            with open(entry.path, "rb") as file:
                found[entry.name] = file.read()
        return found

    def run(self, words, before, seconds=SECONDS, **refused):
        """One run, with BEFORE under each of some names. What it made are the files that are no inputs."""
        self.counts[:] = bytes(32)
        for name in before:
            with open(os.path.join(self.files, name), "wb") as file:
                file.write(BEFORE)
        name, *words = words.split()
        ended = subprocess.run([self.programs[name], *words], cwd=self.files, stdin=subprocess.DEVNULL, capture_output=True, close_fds=False,
                               env=dict(self.env, **{key: str(value) for key, value in refused.items()}), timeout=seconds)
        calls, calls_refused, threads, threads_refused = struct.unpack("4Q", self.counts[:])
        texts = self.texts()
        made = {name: text for name, text in texts.items() if name not in self.inputs}
        changed = [name for name in self.inputs if texts.get(name) != self.inputs[name]]
        for name in made:
            os.remove(os.path.join(self.files, name))
        for name in changed:
            with open(os.path.join(self.files, name), "wb") as file:
                file.write(self.inputs[name])
        assert not changed, f"inputs were changed: {' '.join(changed)}"
        return Run(ended.returncode, ended.stdout, ended.stderr, made, calls, threads, calls_refused + threads_refused)

    def parted(self, words, each, later):
        """One run of a line without outputs from which a process is parted at each call whose number is a multiple of EACH: the
        numbers of these calls, and how the processes ended to which they were refused."""
        forks = self.tally + ".forks"
        run = self.run(words, [], None, REFUSE_FORKS=forks, REFUSE_EACH=each, **later)
        assert not run.made, f"there are {' '.join(sorted(run.made))}"
        with open(forks, "rb") as file:
            told = file.read()
        os.remove(forks)
        found, at = [], 0
        while at < len(told):
            number, status, length = struct.unpack_from("3Q", told, at)
            at += 24 + length
            assert status != 2**64 - 1, f"call {number} comes beside other threads"
            found.append((number, Run(os.waitstatus_to_exitcode(status), told[at - length:at], b"", {}, 0, 0, 1)))
        assert [number for number, _ in found] == list(range(each, run.calls + 1, each)), "calls are left out"
        return found

    def in_time(self, words, before, **refused):
        """One run, or its second one where the first takes too long: the machine may have been busy."""
        try:
            return self.run(words, before, **refused)
        except subprocess.TimeoutExpired:
            print(f"late: {words}: {refused}: it took more than {SECONDS} s, and is run once more", flush=True)
            self.clear()
            return self.run(words, before, **refused)

    def clear(self):
        """Removes all that is no input."""
        for name in set(self.texts()) - set(self.inputs):
            os.remove(os.path.join(self.files, name))


def require_front(what, text, whole):
    assert whole.startswith(text), f"{what} is no front of the whole one: {text[:60]!r}"


def require(run, whole, outputs, before):
    """Fails where a run didn't end as it should."""
    kept = {name: BEFORE for name in before}
    assert not run.complained, f"it complained: {run.complained[:200]!r}"
    assert run.status >= 0, f"it ended by signal {-run.status}"
    if run.status == 8 != whole.status:
        assert run.said in (b"", b"refused 8\n"), f"status 8, and the report {run.said[:60]!r}"
        assert run.made == kept, f"status 8, and there are the outputs {' '.join(sorted(run.made))}"
    elif run.status == 7 and whole.status == 0:
        assert set(run.made) <= set(outputs), f"status 7, and there are {' '.join(sorted(run.made))}"
        all_whole = True
        for name in outputs:
            text = run.made.get(name)
            if text == kept.get(name):
                all_whole = False
                continue
            assert all_whole, f"status 7, and {name} was begun before the one ahead of it was whole"
            require_front(name, text, whole.made[name])
            all_whole = text == whole.made[name]
        require_front("the report", run.said, whole.said if all_whole else b"refused 7\n")
    else:
        assert run.status == whole.status, f"status {run.status}: {run.said[:60]!r}"
        assert run.said == whole.said, f"status {run.status}, and the report {run.said[:60]!r}"
        assert run.made == dict(kept, **whole.made), f"status {run.status}, and other outputs than those of a whole run"


def numbers(count, most):
    """The calls that are refused: all, or some at both ends and others at equal distances; and then on, for who makes more calls."""
    some = range(1, count + 1)
    if count > most:
        ends = most // 10
        step = (count - 2 * ends) / (most - 2 * ends)
        some = sorted({*range(1, ends + 1), *range(count - ends + 1, count + 1), *(ends + int(step * k) for k in range(1, most - 2 * ends))})
    return itertools.chain(some, itertools.count(count + 1))


def try_line(room, words, outputs, most):
    """Runs a line whole and with refusals. Answers how many runs were made and how many failed."""
    whole = room.run(words, [])
    again = room.run(words, outputs)
    if whole.refused or (whole.status, whole.said, whole.made) != (again.status, again.said, again.made):
        print(f"FAILED: {words}: two whole runs differ, of status {whole.status} and {again.status}")
        return 1, 1
    if whole.status == 0 and set(whole.made) != set(outputs):
        print(f"FAILED: {words}: it made {' '.join(whole.made) or 'nothing'}")
        return 1, 1
    ended, failures = collections.Counter(), collections.Counter()
    silent, is_sample = 0, False
    for kind, later in itertools.product(KINDS, (False, True)):
        variable, named = KINDS[kind]
        count = whole.calls if kind == "memory" else whole.threads
        if not count:
            continue
        is_sample = is_sample or count > most // 2
        names = [word for word in words.split() if word.startswith("out.")] if later else []
        spoke = 0
        all_later = {"REFUSE_LATER": 1} if later else {}
        if kind == "memory" and not outputs:
            each = 1 if later else max(1, -(-count // (most // 2)))
            names = []
            attempts = ((number, lambda: run) for number, run in room.parted(words, each, all_later))
        else:
            attempts = ((number, lambda: room.in_time(words, names, **{variable: number}, **all_later)) for number in numbers(count, most // 2))
        for number, attempt in attempts:
            try:
                run = attempt()
                if not run.refused and number > count and run.status == whole.status:
                    break
                ended[run.status] += 1
                if run.status == 8 != whole.status and not run.said:
                    silent += 1
                    assert not spoke, f"status 8 without a line, where the one before it, {spoke}, brought one"
                elif run.status == 8:
                    spoke = number
                require(run, whole, outputs, names)
            except (AssertionError, subprocess.TimeoutExpired) as fault:
                room.clear()
                late = isinstance(fault, subprocess.TimeoutExpired)
                ended["no end"] += late
                why = f"it took more than {SECONDS} s twice" if late else str(fault)
                failures[why] += 1
                if failures[why] == 1:
                    print(f"FAILED: {words}: {named}, {number} of {count}{' and all later ones' if later else ''}: {why}")
    runs, failed = sum(ended.values()), sum(failures.values())
    for why, many in failures.items():
        if many > 1:
            print(f"FAILED: {words}: {many} runs in all: {why}")
    many = lambda status: f"{ended[status]} with {status}"
    others = sorted({status for status in ended if ended[status]} - {8, 7, whole.status}, key=str)
    print(f"{words}: {whole.calls} calls{', of which a sample' if is_sample else ''}, {whole.threads} threads; {runs} runs: {many(8)}"
          f" ({silent} silent), {', '.join(map(many, [7, whole.status] + others))}; {failed} failed", flush=True)
    return runs, failed


def main():
    words = argparse.ArgumentParser(description=__doc__, formatter_class=argparse.RawDescriptionHelpFormatter)
    words.add_argument("programs", nargs="*")
    words.add_argument("--most", type=int, default=3000)
    words.add_argument("--only", default="")
    asked = words.parse_args()
    built = [os.path.abspath(path) for path in asked.programs]
    programs = dict(zip(PROGRAMS, built + [f"{TOP}/crates/{name}/out/{name}" for name in PROGRAMS[len(built):]]))
    runs = failed = 0
    with tempfile.TemporaryDirectory() as folder:
        lines = [(line, outputs) for line, outputs in LINES if asked.only in line]
        for name in sorted({line.split()[0] for line, _ in lines}):
            require_seen(programs[name])
        room = Room(folder, programs)
        for line, outputs in lines:
            made, wrong = try_line(room, line, outputs, asked.most)
            runs, failed = runs + made, failed + wrong
    print(f"{runs} runs, {runs - failed} passed, {failed} failed")
    return 1 if failed else 0


if __name__ == "__main__":
    sys.exit(main())
