#!/usr/bin/env python3
"""Runs crates/speed and its twins in C by turns, and prints the ratio of the least times of each work.

python3 bench/ratios.py [MODE..], after `cd crates/speed && rt run -- none` has built the program.

A work that has no twin is compared with the one before it whose name differs in numbers alone. Of a mode with a twin the
greatest resident sizes are compared too; none is told below the 14,000 KiB or so of this script itself. Where the twin did
not leave the same sums, or print the same other lines, this says so. Of a mode with no twin the other lines, which are the
totals of its runs, are printed as they are."""
import os
import re
import subprocess
import sys
import tempfile

TURNS = 5
TOP = os.path.join(os.path.dirname(os.path.abspath(__file__)), "..")
PROGRAM = os.path.join(TOP, "crates", "speed", "out", "speed")
MODES = ["rows", "samples", "bitmaps", "turns", "list", "memory", "pool", "disk"]
WORK = re.compile(r"(.*): (\d+) microseconds, (\d+)")


class Run:
    """What a run prints: of each work the microseconds and the sum, and its other lines; and its greatest resident size in KiB."""

    def __init__(self, words):
        with tempfile.TemporaryFile("w+") as out:
            child = subprocess.Popen(words, stdout=out)
            _, status, usage = os.wait4(child.pid, 0)
            child.returncode = os.waitstatus_to_exitcode(status)
            if child.returncode != 0:
                sys.exit(f"{words} ended with status {child.returncode}")
            out.seek(0)
            lines = out.read().splitlines()
        self.size = usage.ru_maxrss
        found = [WORK.fullmatch(line) for line in lines]
        self.works = {work[1].strip(): (int(work[2]), int(work[3])) for work in found if work}
        self.others = [line for line, work in zip(lines, found) if not work]


def least(runs, name):
    return min(run.works[name][0] for run in runs)


def report(mode, name, ours, beside, unit="microseconds", note=""):
    print(f"{mode} {name}: {ours} to {beside} {unit}, {ours / max(beside, 1):.2f}{note}")


def compare_with_twin(mode, ours, plain):
    for name in plain[0].works:
        same = ours[0].works[name][1] == plain[0].works[name][1]
        report(mode, name, least(ours, name), least(plain, name), note="" if same else ", but the sums differ")
    same = not plain[0].others or ours[0].others == plain[0].others
    sizes = [min(run.size for run in runs) for runs in (ours, plain)]
    report(mode, "greatest resident size", *sizes, "KiB", "" if same else ", but other lines differ")


def compare_with_each_other(mode, ours, compared):
    first = {}
    for name in ours[0].works:
        if name not in compared:
            before = first.setdefault(re.sub(r"\d+", "", name), name)
            report(mode, name, least(ours, name), least(ours, before))
    if not compared:
        print("".join(f"{mode} {line}\n" for line in ours[0].others), end="")


def main():
    for mode in sys.argv[1:] or MODES:
        source = os.path.join(TOP, "bench", mode + ".c")
        with tempfile.TemporaryDirectory() as folder:
            twin = os.path.join(folder, mode)
            if os.path.exists(source):
                subprocess.run(["cc", "-O2", "-pthread", source, "-o", twin], check=True)
            ours, plain = [], []
            for _ in range(TURNS):
                ours.append(Run([PROGRAM, mode]))
                if os.path.exists(source):
                    plain.append(Run([twin]))
        if plain:
            compare_with_twin(mode, ours, plain)
        compare_with_each_other(mode, ours, plain[0].works if plain else {})


main()
