#!/usr/bin/env python3
"""Turns a `pixels` line of an `argb` view into a picture that image viewers open.

Usage: pixels_to_ppm.py WIDTH HEIGHT <LINE >PICTURE.ppm

The line is read from standard input, as `dump` prints it: the view's name, the word `pixels`, and eight hex digits a
pixel for red, green, blue and alpha. What is written is the Netpbm text of that width and height, without alpha.
"""
import sys


def main():
    width, height = int(sys.argv[1]), int(sys.argv[2])
    words = sys.stdin.read().split()
    if len(words) != 3 or words[1] != "pixels":
        sys.exit("pixels_to_ppm.py: this is no pixels line: " + " ".join(words)[:60])
    stored = bytes.fromhex(words[2])
    if len(stored) != 4 * width * height:
        sys.exit(f"pixels_to_ppm.py: the line has {len(stored)} bytes, and not 4 for each of {width} by {height} pixels")
    stored = bytearray(stored)
    del stored[3::4]
    sys.stdout.buffer.write(b"P6\n%d %d\n255\n" % (width, height) + stored)


main()
