#!/usr/bin/env python3
"""Builds the heap without proofs, with which other tools compare: plain/build_plain.py FILE."""
import os
import subprocess
import sys

SOURCE = os.path.join(os.path.dirname(os.path.abspath(__file__)), "plain_heap.cpp")


def build(program):
    """Builds it as this file, and answers where it is."""
    command = ["g++", "-O2", "-std=c++17", "-o", program, SOURCE]
    # A program that needs no libraries starts faster.
    if subprocess.run(command + ["-static"], stderr=subprocess.DEVNULL).returncode != 0:
        subprocess.run(command, check=True)
    return program


def add_option(parser):
    """The option that names a plain heap; `plain_of` answers it, or builds one."""
    parser.add_argument("--plain", metavar="FILE", help="the plain heap, where plain/build_plain.py built it already")


def plain_of(words, folder):
    return os.path.abspath(words.plain) if words.plain else build(os.path.join(folder, "plain_heap"))


def main():
    if len(sys.argv) != 2:
        sys.exit("usage: plain/build_plain.py FILE")
    build(sys.argv[1])


if __name__ == "__main__":
    sys.exit(print(__doc__) if sys.argv[1:] == ["--help"] else main())
