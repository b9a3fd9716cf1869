"""An independent oracle of the sheet: reads a number, reads a sheet, writes a sheet.

Written from document 01 alone ("The sheet", "Refusals by number"), and from no other code. Each function answers as a line of
vectors.tsv does: `ok ..` or `refused R DETAIL`.
"""


class Refused(Exception):
    """A refusal by its number in document 01, with its detail."""


def number_at(data, at):
    """The number at an offset, and the offset behind it: at most five groups of seven bits, lowest first, shortest form."""
    value = 0
    for group in range(5):
        if at + group == len(data):
            raise Refused(1, at)
        byte = data[at + group]
        value |= (byte & 127) << (7 * group)
        if byte < 128:
            if value >= 2**32 or (group > 0 and byte == 0):
                raise Refused(2, at)
            return value, at + group + 1
    raise Refused(2, at)


def groups_of(value):
    """The bytes of a number in its shortest form."""
    out = bytearray()
    while value > 127:
        out.append(128 | value & 127)
        value >>= 7
    out.append(value)
    return bytes(out)


def bucket():
    """The two fields of a flow's burst and rate."""
    yield range(0, 65536), 4
    yield range(1, 65536), 4


def fields():
    """The fields of a sheet in order: yields what a field may hold and the refusal if it does not, and is sent its number."""
    yield range(1, 2), 4
    servers = yield range(1, 17), 4
    for _ in range(servers):
        yield range(1, 1000001), 4
        yield range(0, 1001), 4
    flows = yield range(0, 49), 4
    for _ in range(flows):
        first = yield range(1, servers + 1), 5
        yield range(first, servers + 1), 5
        yield from bucket()
    yield from bucket()
    yield range(0, 2), 4
    yield (0, 2, 3, 4, 5, 6, 7, 8, 9), 4


def walk(size, take):
    """The numbers of a sheet, from `take`, which gives the number at an offset and the offset behind it."""
    found, at, sheet = [], 0, fields()
    try:
        allowed, refusal = next(sheet)
        while True:
            value, behind = take(at)
            if value not in allowed:
                raise Refused(refusal, at)
            found.append(value)
            at = behind
            allowed, refusal = sheet.send(value)
    except StopIteration:
        if at < size:
            raise Refused(3, at) from None
        return found


def entry_at(numbers, at):
    """The number at a place of a list, and the place behind it."""
    if at == len(numbers):
        raise Refused(1, at)
    return numbers[at], at + 1


def answer(ask):
    """A line: `ok` and what `ask` gives, or the refusal that it raises."""
    try:
        return "ok " + " ".join(map(str, ask()))
    except Refused as refused:
        return "refused %d %d" % refused.args


def number(data, at):
    """The line of a `number` case."""
    return answer(lambda: number_at(data, at))


def read(data, room):
    """The line of a `read` case: a sheet into a lent list of `room` numbers."""

    def ask():
        found = walk(len(data), lambda at: number_at(data, at))
        if room < len(found):
            raise Refused(10, len(found))
        return [len(found)] + found

    return answer(ask)


def write(numbers, room):
    """The line of a `write` case: a list of numbers into a lent buffer of `room` bytes."""

    def ask():
        out = b"".join(map(groups_of, walk(len(numbers), lambda at: entry_at(numbers, at))))
        if room < len(out):
            raise Refused(10, len(out))
        return [len(out), out.hex()]

    return answer(ask)
