"""A run of `ematch solve` beside, which is given commands and asked for verdicts."""

import os
import select
import subprocess
import time

from script_text import read_command

PIECE_BYTES = 1 << 16


class SolverProcess:
    """What stands is kept here, level by level, so that a run that ended by an error or was cut off can be begun anew.

    `program` is the path of `ematch`, `rounds` the number of rounds of instances that a check may enter on a way. `reason`
    says why the last verdict was `unknown`: `incomplete`, `rounds`, `timeout`, or the line of an error."""

    def __init__(self, program, rounds):
        self.words = [program, "--rounds", str(rounds), "solve"]
        self.kept = [[]]
        self.child = None
        self.unread = b""
        self.unwritten = b""
        self.reason = "incomplete"

    def do(self, commands):
        """Hands commands on that are not answered, and keeps what stands. It never waits: what the run does not take now it
        is given at the next check."""
        for text in commands:
            self._keep(text)
        if self.child is not None:
            self._write(commands, time.monotonic())

    def check(self, seconds):
        """`sat`, `unsat` or `unknown`, within so many seconds (None is for ever). Where no answer comes, it is `unknown`
        and the run is ended."""
        self.reason = "incomplete"
        deadline = None if seconds is None else time.monotonic() + seconds
        standing = self._start() if self.child is None else []
        if self._write([*standing, "(check-sat)"], deadline):
            verdict = self._line(deadline)
            if verdict in ("sat", "unsat"):
                return verdict
            if verdict == "unknown" and self._has_told_why(deadline):
                return verdict
            self.reason = self.reason if verdict in ("unknown", None) else verdict
        self.end()
        return "unknown"

    def _has_told_why(self, deadline):
        """Asks why the verdict was `unknown`; whether the answer came."""
        answer = self._line(deadline) if self._write(["(get-info :reason-unknown)"], deadline) else None
        if answer is not None:
            self.reason = "rounds" if "rounds" in answer else "incomplete"
        return answer is not None

    def end(self):
        """Ends the run, if there is one."""
        if self.child is not None:
            self.child.kill()
            self.child.stdin.close()
            self.child.stdout.close()
            self.child.wait()
            self.child = None

    def _keep(self, text):
        head = read_command(text)
        word, count = head[0].text, int(head[1].text) if len(head) > 1 and head[0].text in ("push", "pop") else 1
        if word == "push":
            self.kept.extend([] for _ in range(count))
        elif word == "pop":
            del self.kept[max(1, len(self.kept) - count):]
        elif word in ("reset", "reset-assertions"):
            self.kept = [[]]
        else:
            self.kept[-1].append(text)

    def _start(self):
        """Begins a run. Gives the commands that make what stands."""
        self.child = subprocess.Popen(self.words, stdin=subprocess.PIPE, stdout=subprocess.PIPE, bufsize=0)
        os.set_blocking(self.child.stdin.fileno(), False)
        self.unread = self.unwritten = b""
        pushed = [commands if depth == 0 else ["(push 1)", *commands] for depth, commands in enumerate(self.kept)]
        return [text for commands in pushed for text in commands]

    def _write(self, commands, deadline):
        """Whether the run took all that was written by the deadline; what it did not take is kept for the next time."""
        self.unwritten += "".join(text + "\n" for text in commands).encode("latin-1")
        while self.unwritten:
            left = None if deadline is None else max(0.0, deadline - time.monotonic())
            if not select.select([], [self.child.stdin], [], left)[1]:
                self.reason = "timeout"
                return False
            try:
                taken = self.child.stdin.write(self.unwritten[:PIECE_BYTES])
            except BrokenPipeError:
                self.unwritten = b""
                self.reason = self._line(time.monotonic() + 1) or "the run ended"
                return False
            self.unwritten = self.unwritten[taken or 0:]
        return True

    def _line(self, deadline):
        """The next line of the run; None where it ended without one, or the time is over, which becomes the reason."""
        while b"\n" not in self.unread:
            left = None if deadline is None else max(0.0, deadline - time.monotonic())
            if not select.select([self.child.stdout], [], [], left)[0]:
                self.reason = "timeout"
                return None
            piece = os.read(self.child.stdout.fileno(), PIECE_BYTES)
            if not piece:
                self.reason = "the run ended"
                return None
            self.unread += piece
        line, self.unread = self.unread.split(b"\n", 1)
        return line.decode("latin-1")
