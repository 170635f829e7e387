#!/usr/bin/env python3
"""decode_log.py LOG: prints what `squitter track` prints for a log; each line has a timestamp (ms) and a frame."""
import argparse
import os
import sys


def main() -> None:
    parser = argparse.ArgumentParser(description="Prints what 'squitter track' prints for a log.")
    parser.add_argument("log", metavar="LOG", type=argparse.FileType("rb"),
                        help="a file whose lines have a timestamp in milliseconds and a frame")
    given = parser.parse_args().log
    try:
        import squitter
    except (ImportError, OSError):
        print("decode_log.py: needs the Python module squitter: PYTHONPATH=clib, after make -C clib", file=sys.stderr)
        sys.exit(3)
    out = sys.stdout.buffer
    try:
        with given as file, squitter.Log() as log:
            for piece in iter(lambda: file.read1(1 << 16), b""):
                out.write(log.take_text(piece))
                out.flush()
            out.write(log.finish_text())
            out.flush()
    except OSError as error:
        print(f"decode_log.py: {error.strerror}", file=sys.stderr, flush=True)
        os._exit(3)  # At a normal end Python would write once more what the output has refused.


if __name__ == "__main__":
    main()
