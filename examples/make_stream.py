#!/usr/bin/env python3
"""Turns a job of readable lines into the bytes of a job stream (document 01, "Job stream").

    python3 examples/make_stream.py [FILE] > job.stream

reads FILE, or standard input without one. One command a line: --help lists them.
What a relative is measured against: at an open, the reference year; at a quarter
or a close, the opening or the last accepted close, and never the quarter before.
The mistake: prices rise by 2 percent in one quarter and by 2 percent more in the
next, and

    relative unit 11 102000      and again      relative unit 11 102000
    quarter                                    quarter

are handed in. That is the same price twice, and gives the same figure twice.
The second quarter's relative is 104040.
A line that is none of these, or a number that its bytes cannot hold, ends the
script with status 2 and the line's number; nothing is written then. Whether a
job makes sense is judged by the program that runs it. The work is in tools/job.py.
"""

import os
import sys

sys.path.insert(0, os.path.join(os.path.dirname(os.path.realpath(__file__)), "..", "tools"))
sys.dont_write_bytecode = True
import start

if __name__ == "__main__":
    start.start("make_stream", sys.argv[1:])
