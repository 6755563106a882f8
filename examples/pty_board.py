#!/usr/bin/env python3
"""pty_board.py [ID]: a board on a pseudo-terminal. It answers at once, whatever the slot, and its arm is at its goal at once"""
import os
import select
import signal
import sys
import tty
import mednukals

signal.signal(signal.SIGINT, signal.SIG_DFL)
if len(sys.argv) > 2 or not "".join(sys.argv[1:2] or "1").isdecimal():
    sys.exit(f"usage: {__doc__}")
try:
    board = mednukals.Board(int(sys.argv[1]) if len(sys.argv) > 1 else 1)
except ValueError as error:
    sys.exit(f"pty_board.py: {error}")
line, other = os.openpty()
tty.setraw(other)
print(f"line: {os.ttyname(other)}", flush=True)
while True:
    ready, _, _ = select.select([line], [], [], 0.0015 if board.held else None)
    for event in board.feed(os.read(line, 4096)) if ready else board.gap():
        board.measure(board["goal_position"])
        if event.reply:
            os.write(line, event.reply.status())
