#!/usr/bin/env python3
"""Prints what `foedus dump` or `foedus snap` printed as CSV, with the columns storage, key, value.

Usage: tools/csv_out.py [FILE], where FILE is what was printed; standard input if it is left out. The way back is
tools/load.py --csv. Nothing is printed unless the whole input is well. Status: 0; 1 where the input or the output can't
be used, which standard error names; 2 for other words.
"""
import sys

from rows import HEADER, Refused, dump_rows, each_once, open_input, write_out


def main(words):
    if len(words) > 1 or any(word.startswith("-") for word in words):
        print(__doc__, file=sys.stderr)
        return 2
    try:
        source, name = open_input(words[0] if words else None)
        rows = [row for row, _ in each_once(dump_rows(iter(source), name), name)]
        write_out("".join(",".join(map(str, row)) + "\n" for row in [HEADER, *rows]))
    except Refused as error:
        print(f"csv_out: {error}", file=sys.stderr)
        return 1
    return 0


if __name__ == "__main__":
    sys.exit(main(sys.argv[1:]))
