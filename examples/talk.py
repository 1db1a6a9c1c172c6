#!/usr/bin/env python3
"""Talks to the store over pipes: python3 examples/talk.py FILE

Counts in the root's number how often it was run. FILE is a store that `./store FILE make 16` made.
Each call is one line, and its reply is one line. A reply comes before the store reads on, so a program
may wait for each, or send some calls at once and read their replies then.
"""
import contextlib
import pathlib
import subprocess
import sys

PROGRAM = pathlib.Path(__file__).resolve().parent.parent / "store"


class Store:
    """A running `./store FILE run`. Leaving it closes its input, which ends it."""

    def __init__(self, file):
        self.process = subprocess.Popen(
            [PROGRAM, file, "run"], stdin=subprocess.PIPE, stdout=subprocess.PIPE, text=True
        )

    def __enter__(self):
        return self

    def __exit__(self, *_):
        with contextlib.suppress(BrokenPipeError):
            self.process.stdin.close()
        self.process.wait()

    def calls(self, *lines):
        """Sends some calls at once, and gives their replies."""
        with contextlib.suppress(BrokenPipeError):
            self.process.stdin.write("".join(line + "\n" for line in lines))
            self.process.stdin.flush()
        return [self.reply() for _ in lines]

    def reply(self):
        line = self.process.stdout.readline()
        if not line:
            # What it told on standard error says why.
            sys.exit(f"the store ended with status {self.process.wait()}")
        return line.rstrip("\n")


def main(file):
    root = "0.0.1"
    with Store(file) as store:
        begun, number = store.calls("begin 1", f"num 1 {root}")
        if begun != "ok":
            sys.exit(begun)
        count = int(number.removeprefix("num ")) + 1
        put, commit = store.calls(f"put 1 {root} {count}", "commit 1")
        # Only this acknowledgement says that the number is safe, whatever stops the machine from now on.
        if put != "ok" or not commit.startswith("commit "):
            sys.exit(f"not committed: {put}, {commit}")
        print(f"run {count}, {commit}")


if __name__ == "__main__":
    if len(sys.argv) != 2:
        sys.exit(__doc__)
    main(sys.argv[1])
