#!/usr/bin/env python3
"""The lexer on 16 MiB of comments, of brackets, of one long name and of ordinary PDDL: megabytes a second, peak memory
over the size of the input, and the time over that of a lexer in plain Rust.

It stands outside the gate. Build the program first: `rt run`, in crates/bench_lex. It needs rustc for the yardstick."""
import os
import sys
import tempfile

sys.dont_write_bytecode = True
from measure import compared, program, yardstick

SIZE = 16 * 1024 * 1024


def ordinary():
    """Facts as they stand in a problem text, with numbers and keywords."""
    lines = [f"  (road place-{k} place-{(k * 7 + 1) % 1000}) (= (length place-{k} ?to) {k}.5) ; a road\n" for k in range(1000)]
    return "(:init\n" + "".join(lines) + ")\n"


PIECES = {
    "comments": "; a comment that says nothing of any use to a planner, and goes on to the end of the line\n",
    "brackets": "(" * 200 + ")" * 200,
    "one name": "a",
    "ordinary": ordinary(),
}


def write(path, piece):
    """The piece again and again up to the size, and blanks to its end; a block at a time, since a child's peak of
    memory is never below that of this process."""
    count = max(1, 2**16 // len(piece))
    with open(path, "w") as file:
        for _ in range(SIZE // (count * len(piece))):
            file.write(piece * count)
        file.write(piece * (SIZE % (count * len(piece)) // len(piece)) + " " * (SIZE % len(piece)))


def main():
    ours = program("bench_lex")
    with tempfile.TemporaryDirectory() as folder:
        theirs = yardstick("lex", folder)
        for name, piece in PIECES.items():
            write(os.path.join(folder, "text"), piece)
            for what in ("tokens", "brackets"):
                mine, other = compared(ours, theirs, [what, "text"], folder)
                print(f"{name}, {what:>8}: {SIZE / 1e6 / mine[0]:7.1f} MB/s, {mine[0] / other[0]:5.2f} times plain Rust; "
                      f"{mine[1] / SIZE:6.1f} bytes of memory a byte, plain Rust {other[1] / SIZE:6.1f}")


main()
