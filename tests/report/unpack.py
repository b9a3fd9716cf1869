"""unpack.py VECTORS CASES: writes each case of the report as CASES/N.in and CASES/N.out, from 0 on, and prints how many there are.

A line of the vectors has four fields with tabs between: `report`, `-`, the bytes of standard input in hexadecimal digits (`-`: none),
and `text ..` with each line end written as \\n. Rows 11 to 14 of document 01's table must be among them, with the document's answer.
Two cases stand behind them: the longest sheet, and the same with a byte left over, so that no part of a sheet may be passed by.
"""
import os
import sys


def sheet(groups, rate, watched, grid, servers):
    """A sheet in which every server has rate 10, every bucket burst 1, each group the given path, and mode is 0."""
    numbers = [1, servers] + [10, 0] * servers + [len(groups)]
    for first, last in groups:
        numbers += [first, last, 1, rate]
    return bytes(numbers + [1, watched, 0, grid])


def single(n):
    """n groups on a server each."""
    return [(k, k) for k in range(1, n + 1)]


ROWS = {
    "11": (sheet([(1, 1)], 6, 4, 3, 1), "bound "),
    "12": (sheet(single(5), 1, 1, 9, 5), "bound "),
    "13": (sheet(single(6), 1, 1, 9, 6), "refused 8 at 6\n"),
    "14, sixteen groups": (sheet(single(16), 1, 1, 2, 16), "bound "),
    "14, seventeen groups": (sheet(single(16) + [(1, 2)], 1, 1, 2, 16), "refused 8 at 17\n"),
}


def seven(x):
    """A number in groups of seven bits, lowest first."""
    return bytes([x]) if x < 128 else bytes([x % 128 + 128]) + seven(x // 128)


# "A valid sheet has at most 475 bytes": every number as long as its range lets it be. Its rates are too high at server 1.
LONGEST = b"".join(map(seven, [1, 16] + [1000000, 1000] * 16 + [48] + [1, 1, 65535, 65535] * 48 + [65535, 65535, 0, 9]))
assert len(LONGEST) == 475
BEHIND = [(LONGEST, "refused 7 at 1\n"), (LONGEST + b"\0", "refused 3 at 475\n")]


def main(vectors, cases):
    os.makedirs(cases, exist_ok=True)
    said = {}
    with open(vectors, encoding="ascii") as lines:
        for n, line in enumerate(lines):
            name, _, given, answer = line.rstrip("\n").split("\t")
            data = b"" if given == "-" else bytes.fromhex(given)
            text = answer[len("text "):].replace("\\n", "\n")
            assert name == "report" and answer.startswith("text "), line
            said[data] = text
            with open(f"{cases}/{n}.in", "wb") as out:
                out.write(data)
            with open(f"{cases}/{n}.out", "w", encoding="ascii") as out:
                out.write(text)
    for row, (data, answer) in ROWS.items():
        assert said.get(data, "").startswith(answer), f"row {row} of document 01 is missing, or has another answer"
    for n, (data, answer) in enumerate(BEHIND, n + 1):
        with open(f"{cases}/{n}.in", "wb") as out:
            out.write(data)
        with open(f"{cases}/{n}.out", "w", encoding="ascii") as out:
            out.write(answer)
    print(n + 1)


main(*sys.argv[1:])
