"""Commands read from a stream, and a thread with room for deep ones."""

import os
import sys
import threading

from script_text import CommandCutter, TextFault

PIECE_BYTES = 1 << 16
STACK_BYTES = 512 << 20


def commands_of(descriptor):
    """The pairs of line and text of the commands that a file descriptor gives, each as soon as it is whole. Raises
    `TextFault` behind the last one where the bytes are no script."""
    cutter = CommandCutter()
    while True:
        piece = os.read(descriptor, PIECE_BYTES).decode("latin-1")
        if not piece:
            cutter.end()
            return
        fault = None
        try:
            cutter.feed(piece)
        except TextFault as found:
            fault = found
        yield from cutter.whole
        if fault:
            raise fault


def write_commands(stream, commands):
    """Writes commands to a stream of bytes, a line each, and flushes it."""
    stream.write("".join([command + "\n" for command in commands]).encode("latin-1"))
    stream.flush()


def run_deep(function):
    """Runs a function in a thread with room for deep nesting, and ends with the status that it gives."""
    threading.stack_size(STACK_BYTES)
    statuses = [70]
    thread = threading.Thread(target=lambda: statuses.__setitem__(0, function()))
    thread.start()
    thread.join()
    sys.exit(statuses[0])
