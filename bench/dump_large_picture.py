#!/usr/bin/env python3
"""Times this project's program against plain C on one large picture.

    bench/dump_large_picture.py PROGRAM

PROGRAM is the built program, such as crates/glide_program/out/glide_program. Both print the
pixels of the same picture of 4000 by 3000, the one by a script of two lines, the other directly
(dump_ppm.c, built here by gcc -O2). It first sees that both print the same bytes, and then
times each five times with the output thrown away, by turns, and prints the best of each and
their ratio. Below 1 this project's program is the faster one.

The picture's samples are the high bytes of the linear congruential generator of "Numerical
Recipes", x * 1664525 + 1013904223 modulo 2 ** 32, from x = 1: the first 999,983 of them over and
over, so that rows differ and making them takes no time.
"""
import hashlib
import os
import subprocess
import sys
import tempfile
import time

WIDTH, HEIGHT, RUNS, PERIOD = 4000, 3000, 5, 999_983


def samples(count):
    state, period = 1, bytearray()
    for _ in range(PERIOD):
        state = (state * 1664525 + 1013904223) % 2**32
        period.append(state >> 24)
    return (bytes(period) * (count // PERIOD + 1))[:count]


def run(command, folder, script, out):
    with open(script, "rb") as text:
        start = time.perf_counter()
        done = subprocess.run(command, cwd=folder, stdin=text, stdout=out)
        took = time.perf_counter() - start
    if done.returncode != 0:
        sys.exit(f"{command[0]} ended with status {done.returncode}")
    return took


def digest(command, folder, script):
    with tempfile.TemporaryFile() as out:
        run(command, folder, script, out)
        out.seek(0)
        return hashlib.sha256(out.read()).hexdigest()


def main():
    if len(sys.argv) != 2:
        sys.exit("usage: dump_large_picture.py PROGRAM")
    here = os.path.dirname(os.path.abspath(__file__))
    with tempfile.TemporaryDirectory() as folder:
        images = os.path.join(folder, "images")
        picture = os.path.join(images, "large")
        script = os.path.join(folder, "script")
        plain = os.path.join(folder, "dump_ppm")
        os.mkdir(images)
        with open(picture, "wb") as out:
            out.write(b"P6\n%d %d\n255\n" % (WIDTH, HEIGHT) + samples(3 * WIDTH * HEIGHT))
        with open(script, "w") as out:
            out.write(f"load a large 1 {WIDTH} {HEIGHT} none argb\ndump a\n")
        subprocess.run(["gcc", "-O2", "-o", plain, os.path.join(here, "dump_ppm.c")], check=True)
        ours, theirs = [os.path.abspath(sys.argv[1])], [plain, picture]
        if digest(ours, folder, script) != digest(theirs, folder, script):
            sys.exit("the two print different bytes")
        best = {"ours": float("inf"), "C": float("inf")}
        for _ in range(RUNS):
            for name, command in (("ours", ours), ("C", theirs)):
                best[name] = min(best[name], run(command, folder, script, subprocess.DEVNULL))
    print(f"ours {best['ours']:.3f} s   C {best['C']:.3f} s   ratio {best['ours'] / best['C']:.2f}")


main()
