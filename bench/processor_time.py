#!/usr/bin/env python3
"""processor_time.py FOLDER LOG COMMAND..: runs a command of `rt` in a folder and prints its processor minutes by crate and kind.

It looks at the processes of the command five times a second. A process of the prover names its crate, and a kind: the proof of
the crate, the proof of its tests (--test), or a must-fail edit (it runs in a folder of rt's of its own for these). A process that
names none counts as the one that started it. What ends between two looks is missed by up to a fifth of a second; the last
line has how much of what the system counts was not seen. Ends with the command's status.
"""
import os
import re
import resource
import subprocess
import sys
import time

KINDS = ("proof", "tests", "edits", "other")
TICKS = os.sysconf("SC_CLK_TCK")
OTHER = ("rt itself", "other")


def text_of(path):
    try:
        with open(path, "rb") as file:
            return file.read()
    except OSError:
        return b""


def where(pid):
    try:
        return os.readlink(f"/proc/{pid}/cwd")
    except OSError:
        return ""


def label_of(pid):
    """The crate and the kind that a process names, if it does."""
    words = text_of(f"/proc/{pid}/cmdline").decode(errors="replace").split("\0")
    if "--crate-name" in words:
        crate = words[words.index("--crate-name") + 1]
        if "/rt-edit" in where(pid):
            return crate, "edits"
        return crate, "tests" if "--test" in words else "proof"
    made = re.search(r"/out/(\w+?)(_tests)?(\.o|\.rattle)?( |$)", " ".join(words) + " ")
    if made and "/rt" not in words[0]:
        return made.group(1), "tests" if made.group(2) else "other"
    return None


def looked_at():
    """Each process: its parent, its begin, and the processor time that it has taken."""
    found = {}
    for name in os.listdir("/proc"):
        if name.isdigit():
            # The name of the program stands in parentheses, and may have blanks.
            fields = text_of(f"/proc/{name}/stat").rpartition(b")")[2].split()
            if len(fields) > 19:
                found[int(name)] = int(fields[1]), int(fields[19]), (int(fields[11]) + int(fields[12])) / TICKS
    return found


class Sampler:
    """What each process that comes of one process has taken so far."""

    def __init__(self, root):
        self.root, self.taken, self.labels = root, {}, {}

    def look(self):
        now = looked_at()
        children = {}
        for pid, (parent, _, _) in now.items():
            children.setdefault(parent, []).append(pid)
        left = [(self.root, OTHER)]
        while left:
            pid, inherited = left.pop()
            if pid not in now:
                continue
            _, begun, seconds = now[pid]
            key = pid, begun
            if self.labels.get(key, OTHER) == OTHER:
                self.labels[key] = label_of(pid) or inherited
            self.taken[key] = seconds
            left += [(child, self.labels[key]) for child in children.get(pid, [])]

    def table(self):
        """The seconds of each crate by kind."""
        rows = {}
        for key, seconds in self.taken.items():
            crate, kind = self.labels[key]
            row = rows.setdefault(crate, dict.fromkeys(KINDS, 0.0))
            row[kind] += seconds
        return rows


def line(name, seconds):
    figures = [*seconds, sum(seconds)]
    return f"{name:20}" + "".join(f"{it / 60:9.2f}" for it in figures)


def main():
    folder, log, *command = sys.argv[1:]
    begun = time.monotonic()
    with open(log, "wb") as out:
        running = subprocess.Popen(command, cwd=folder, stdin=subprocess.DEVNULL, stdout=out, stderr=out)
        sampler = Sampler(running.pid)
        while running.poll() is None:
            sampler.look()
            time.sleep(0.2)
    used = resource.getrusage(resource.RUSAGE_CHILDREN)
    rows = sampler.table()
    print(f"{'processor minutes':20}" + "".join(f"{it:>9}" for it in (*KINDS, "sum")))
    for crate in sorted(rows, key=lambda it: -sum(rows[it].values())):
        print(line(crate, [rows[crate][kind] for kind in KINDS]))
    sums = [sum(row[kind] for row in rows.values()) for kind in KINDS]
    print(line("all", sums))
    counted = used.ru_utime + used.ru_stime
    print(f"{(time.monotonic() - begun) / 60:.1f} minutes by the clock; {(counted - sum(sums)) / 60:.2f} processor minutes of {counted / 60:.2f} were not seen")
    return running.returncode


sys.exit(main())
