#!/usr/bin/env python3
"""What the gate costs: runs `rt ci` in this checkout, looks at its processes twice a second, and prints processor
minutes by kind of work and the ten costliest crates, as the tables of docs/benchmarks.md have them.

    bench/gate.py                     runs rt ci; its lines are shown as they come and kept in gate.log
    bench/gate.py --anew              the same with nothing kept from earlier runs: this is the figure to compare
    bench/gate.py NAME..              the same for these crates and those below them
    bench/gate.py --table FILE..      prints the tables of runs whose times were kept (gate.times), added up: a gate that
                                      was run in parts, of which each kept what it passed, costs their sum
    bench/gate.py --cases             counts the cases that the repository has: tests, data, scripts, wrong bodies

A process that ends between two looks is counted up to the last of them; what that leaves out stands as `the rest`,
since the whole is what the system says of the run.
"""
import collections
import glob
import os
import re
import resource
import subprocess
import sys
import threading

TOP = os.path.dirname(os.path.dirname(os.path.abspath(__file__)))
TICKS = os.sysconf("SC_CLK_TCK")


def kind_of(words, folder):
    """The kind of work and the crate of a process, else None."""
    if "--crate-name" not in words or not os.path.basename(words[0]).startswith("rattle"):
        return None
    crate = words[words.index("--crate-name") + 1]
    kept = next((words[at + 1] for at, it in enumerate(words[:-1]) if it == "--incremental"), "")
    if "rt-edit" in folder or "rt-edits-" in kept:
        return ("proofs that edits begin with" if kept.endswith("/seed") else "wrong bodies"), crate
    if "--test" in words:
        return "tests", crate
    if "--crate-checked" in words:
        return "compiling programs", crate
    return "proofs", crate


class Watch:
    """The processor seconds of each process below one, by what it is."""

    def __init__(self, pid):
        self.pid, self.seen, self.done = pid, {}, threading.Event()

    def below(self):
        parents = collections.defaultdict(list)
        for at in os.listdir("/proc"):
            if at.isdigit():
                try:
                    parents[int(open(f"/proc/{at}/stat").read().rpartition(")")[2].split()[1])].append(int(at))
                except OSError:
                    pass
        found, left = [], [self.pid]
        while left:
            children = parents[left.pop()]
            found += children
            left += children
        return found

    def look(self):
        for pid in self.below():
            try:
                words = open(f"/proc/{pid}/cmdline").read().split("\0")
                fields = open(f"/proc/{pid}/stat").read().rpartition(")")[2].split()
                kind = kind_of(words, os.readlink(f"/proc/{pid}/cwd"))
            except OSError:
                continue
            if kind:
                # (by its time of start too, since numbers of processes come again)
                self.seen[pid, fields[19]] = *kind, (int(fields[11]) + int(fields[12])) / TICKS

    def run(self):
        while not self.done.wait(0.5):
            self.look()


def watched(words):
    """Runs the command; its processor seconds as (kind, crate, seconds), the whole, and its status."""
    before = resource.getrusage(resource.RUSAGE_CHILDREN)
    with open(f"{TOP}/gate.log", "w") as log:
        ran = subprocess.Popen(words, cwd=TOP, stdout=subprocess.PIPE, stderr=subprocess.STDOUT, text=True, errors="replace")
        watch = Watch(ran.pid)
        thread = threading.Thread(target=watch.run)
        thread.start()
        for line in ran.stdout:
            log.write(line)
            if line.startswith(("rt: ", "== ")) or " passed, " in line:
                print(line, end="", flush=True)
        status = ran.wait()
        watch.done.set()
        thread.join()
    after = resource.getrusage(resource.RUSAGE_CHILDREN)
    whole = after.ru_utime + after.ru_stime - before.ru_utime - before.ru_stime
    return list(watch.seen.values()), whole, status


def tables(times, whole):
    kinds, crates = collections.Counter(), collections.defaultdict(collections.Counter)
    for kind, crate, seconds in times:
        kinds[kind] += seconds
        crates[crate][kind] += seconds
    kinds["the rest"] = max(0.0, whole - sum(kinds.values()))
    print("\n| Kind | Processor minutes |\n|---|---|")
    for kind, seconds in kinds.most_common():
        print(f"| {kind} | {seconds / 60:.1f} |")
    print(f"| **the whole gate** | **{whole / 60:.1f}** |")
    print("\n| Crate | Processor minutes | of which its own proof | wrong bodies |\n|---|---|---|---|")
    for crate, parts in sorted(crates.items(), key=lambda it: -sum(it[1].values()))[:10]:
        wrong = parts["wrong bodies"] + parts["proofs that edits begin with"]
        print(f"| `{crate}` | {sum(parts.values()) / 60:.1f} | {parts['proofs'] / 60:.1f} | {wrong / 60:.1f} |")


def cases():
    count = lambda pattern, of: sum(of(open(it, encoding="utf-8", errors="replace").read()) for it in glob.glob(f"{TOP}/{pattern}", recursive=True))
    lines = lambda text: sum(1 for it in text.split("\n") if it and not it.startswith("#"))
    print("| What | Count |\n|---|---|")
    print(f"| functions under `#[test]` | {count('crates/*/src/**/*.rt', lambda it: len(re.findall(r'^ *#.test.$', it, re.M)))} |")
    print(f"| lines of data that programs are run on | {count('crates/*/stdin', lines)} |")
    print(f"| golden scripts | {len(glob.glob(f'{TOP}/tests/scripts/*.script'))} |")
    print(f"| wrong bodies | {len(glob.glob(f'{TOP}/crates/*/must-fail/*.edit'))} |")


def main():
    words = sys.argv[1:]
    if words == ["--cases"]:
        return cases()
    if words[:1] == ["--table"]:
        kept = [line.rstrip("\n").split("\t") for file in words[1:] for line in open(file)]
        times = [(kind, crate, float(seconds)) for kind, crate, seconds in kept]
        whole = sum(seconds for kind, _, seconds in times if kind == "whole")
        return tables([each for each in times if each[0] != "whole"], whole)
    times, whole, status = watched(["rt", "ci", *words])
    with open(f"{TOP}/gate.times", "w") as file:
        for kind, crate, seconds in [("whole", "all", whole), *times]:
            file.write(f"{kind}\t{crate}\t{seconds}\n")
    tables(times, whole)
    sys.exit(status)


if __name__ == "__main__":
    main()
