#!/usr/bin/env python3
"""Writes the stored cases of crates/cases.

  make.py STDIN STDOUT

STDIN gets the cases, each as five numbers, its kind, two numbers and the lengths of two files, and then the files; STDOUT what
must be printed for them. The cases stand in refusals.py, runs.py, carries.py and forms.py, each as (kind, x, y, file, file, printed).
"""
import sys

import carries
import forms
import refusals
import runs
from common import numbers

with open(sys.argv[1], "wb") as stdin, open(sys.argv[2], "wb") as stdout:
    for part in (refusals, runs, carries, forms):
        for kind, x, y, one, other, printed in part.cases:
            stdin.write(numbers(kind, x, y, len(one), len(other)) + one + other)
            stdout.write(printed)
        print(f"{part.__name__}: {len(part.cases)} cases", file=sys.stderr)
