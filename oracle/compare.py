#!/usr/bin/env python3
"""Runs two line programs on the same scripts and compares what they print, byte by byte.

    oracle/compare.py --scripts 20000 --seed 1 PROGRAM_A PROGRAM_B

First come the cases with answers written by hand (oracle/cases), then random scripts.
A program is a command with its arguments, if any, in one word. At the first difference the
script is kept in a file, whole and cut down to the lines that matter, and the exit code is 1.
The last line printed says how many scripts ran and that none differ.
"""

import argparse
import collections
import itertools
import pathlib
import shlex
import subprocess
import sys

import scripts

HERE = pathlib.Path(__file__).resolve().parent


class Program:
    def __init__(self, command, seconds):
        self.command = shlex.split(command)
        self.seconds = seconds

    def run(self, script):
        """What the program prints, or how it failed; both as bytes."""
        try:
            done = subprocess.run(self.command, input=script, capture_output=True, timeout=self.seconds)
        except subprocess.TimeoutExpired:
            return f"[no end after {self.seconds} s]\n".encode()
        if done.returncode != 0:
            return done.stdout + f"[exit code {done.returncode}]\n".encode() + done.stderr
        return done.stdout


def split_lines(script):
    """The lines with their ends: byte 10 and no other ends one."""
    pieces = script.split(b"\n")
    return [piece + b"\n" for piece in pieces[:-1]] + ([pieces[-1]] if pieces[-1] else [])


def differ(programs, script):
    return len({program.run(script) for program in programs}) > 1


def first_line_that_differs(programs, lines):
    """The least number of lines, from the start, on which the programs differ."""
    low, high = 0, len(lines)
    while high - low > 1:
        middle = (low + high) // 2
        low, high = (low, middle) if differ(programs, b"".join(lines[:middle])) else (middle, high)
    return high


def cut_down(programs, lines):
    """Lines that still make the programs differ, and cannot be left out one by one."""
    at = 0
    while at < len(lines):
        fewer = lines[:at] + lines[at + 1 :]
        if differ(programs, b"".join(fewer)):
            lines = fewer
        else:
            at += 1
    return lines


def first_difference(left, right):
    """The number, from 1, of the first printed line that differs, and both lines."""
    pairs = itertools.zip_longest(split_lines(left), split_lines(right), fillvalue=b"[no line]")
    return next((number, *pair) for number, pair in enumerate(pairs, 1) if pair[0] != pair[1])


def report(programs, name, script, keep):
    lines = split_lines(script)
    count = first_line_that_differs(programs, lines)
    printed = [program.run(b"".join(lines[:count])) for program in programs]
    number, *answers = first_difference(*printed)
    keep.mkdir(parents=True, exist_ok=True)
    whole, small = keep / f"{name}.in", keep / f"{name}.small.in"
    whole.write_bytes(script)
    small.write_bytes(b"".join(cut_down(programs, lines[:count])))
    print(f"{name} differs at its line {count}: {lines[count - 1]!r}")
    for program, answer in zip(programs, answers):
        print(f"  {shlex.join(program.command)} prints as line {number}: {answer!r}")
    print(f"kept in {whole}, cut down in {small}")


def sort_of_answer(line):
    """A printed line without what it names: hexadecimal lines and values each as one sort."""
    words = line.split()
    if words[:1] == [b"refused"]:
        return b" ".join(words[:2]).decode()
    if line in (b"yes", b"no", b"none") or words[:1] == [b"ok"]:
        return words[0].decode()
    return "listing" if len(line) >= 16 else "value"


def run_cases(programs):
    """Each program must answer each case as written; says how many there are."""
    cases = sorted((HERE / "cases").glob("*.in"))
    for case in cases:
        expected = case.with_suffix(".out").read_bytes()
        for program in programs:
            printed = program.run(case.read_bytes())
            if printed != expected:
                number, answer, right = first_difference(printed, expected)
                sys.exit(f"case {case.stem}: {shlex.join(program.command)} prints as line {number} {answer!r}, not {right!r}")
    return len(cases)


def random_scripts(arguments):
    numbers = range(arguments.scripts) if arguments.only is None else [arguments.only]
    for number in numbers:
        yield f"seed-{arguments.seed}-script-{number}", *scripts.script(arguments.seed, number)
    if arguments.full:
        yield f"seed-{arguments.seed}-full", *scripts.full_script(arguments.seed)


def table(counter):
    return ", ".join(f"{name} {count}" for name, count in sorted(counter.items(), key=lambda item: natural(item[0])))


def natural(name):
    return [int(word) if word.isdigit() else 0 for word in name.split()], name


def arguments():
    parser = argparse.ArgumentParser(description=__doc__, formatter_class=argparse.RawDescriptionHelpFormatter)
    parser.add_argument("programs", nargs=2, metavar="PROGRAM")
    parser.add_argument("--scripts", type=int, default=1000, help="how many random scripts (1000)")
    parser.add_argument("--seed", type=int, default=1, help="of the random scripts (1)")
    parser.add_argument("--only", type=int, help="run this one script of the seed")
    parser.add_argument("--full", action="store_true", help="also the longest cascade, which takes a naive program many seconds")
    parser.add_argument("--seconds", type=float, default=120, help="that a program may take for a script (120)")
    parser.add_argument("--keep", type=pathlib.Path, default=HERE / "target" / "differing", help="folder for scripts that differ")
    return parser.parse_args()


def main():
    chosen = arguments()
    programs = [Program(command, chosen.seconds) for command in chosen.programs]
    cases = run_cases(programs)
    ran, sorts, answers = 0, collections.Counter(), collections.Counter()
    for name, sort, script in random_scripts(chosen):
        printed = [program.run(script) for program in programs]
        if printed[0] != printed[1]:
            report(programs, name, script, chosen.keep)
            sys.exit(1)
        ran += 1
        sorts[sort] += 1
        answers.update(map(sort_of_answer, printed[0].splitlines()))
    print(f"sorts of script: {table(sorts)}")
    print(f"printed lines: {table(answers)}")
    print(f"{cases} cases and {ran} scripts ran; none differ")


if __name__ == "__main__":
    main()
