"""Passes the lines of the gate on, and puts counts before the last of them: last_lines.py COUNTS END

COUNTS is a file of lines. END is the line behind which nothing of the gate comes.
"""
import signal
import sys


def main(counts: str, end: str) -> None:
    # whoever interrupts the gate reads what it has to say of that
    signal.signal(signal.SIGINT, signal.SIG_IGN)
    out, held, ended = sys.stdout.buffer, b"", b""
    for line in sys.stdin.buffer:
        # what was held may have no line break, if the gate was cut off
        before, ended, _ = line.rpartition(end.encode())
        if ended:
            held += before
            break
        out.write(held)
        out.flush()
        held = line
    if ended:
        with open(counts, "rb") as it:
            out.write(it.read())
    out.write(held)
    out.flush()


if __name__ == "__main__":
    main(*sys.argv[1:])
