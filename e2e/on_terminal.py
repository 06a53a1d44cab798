#!/usr/bin/env python3
"""on_terminal.py [--all | --gone | --paused FILE] COMMAND..: runs a command whose standard error is a terminal, and ends with the command's status. In sent.txt it keeps all that the terminal was sent, and in shown.txt what it shows at the end. With --all its standard output is the terminal too. With --gone the terminal goes away after half a second. With --paused the command is stopped for more than a second as soon as there is such a file, so that it works for so long."""
import os
import pty
import re
import signal
import subprocess
import sys
import time


def shown(sent):
    """The lines that a terminal shows: a return goes to the front of the line, and ESC [ K erases what is behind."""
    lines, line, at = [], bytearray(), 0
    for piece in re.findall(rb"\x1b\[K|[^\x1b]", sent):
        if piece == b"\r":
            at = 0
        elif piece == b"\n":
            lines.append(bytes(line) + b"\n")
            line, at = bytearray(), 0
        elif piece == b"\x1b[K":
            del line[at:]
        else:
            line[at : at + 1] = piece
            at += 1
    return b"".join(lines) + bytes(line)


def received(master):
    while True:
        try:
            piece = os.read(master, 65536)
        except OSError:  # the command has ended
            return
        if not piece:
            return
        yield piece


def pause(child, name):
    """Stops the command for a while, once there is such a file."""
    while not os.path.exists(name) and child.poll() is None:
        time.sleep(0.001)
    child.send_signal(signal.SIGSTOP)
    time.sleep(1.3)
    child.send_signal(signal.SIGCONT)


words = sys.argv[1:]
mode = words.pop(0) if words[0].startswith("--") else ""
awaited = words.pop(0) if mode == "--paused" else None
master, slave = pty.openpty()
child = subprocess.Popen(words, stdout=slave if mode == "--all" else None, stderr=slave)
os.close(slave)
if awaited:
    pause(child, awaited)
if mode == "--gone":
    time.sleep(0.5)
    sent = b""
else:
    sent = b"".join(received(master))
os.close(master)
with open("sent.txt", "wb") as kept:
    kept.write(sent)
with open("shown.txt", "wb") as kept:
    kept.write(shown(sent))
sys.exit(child.wait())
