"""Bytes: group numbers, a matrix, a bundle. A fault in the bytes is raised as Refusal with its number and offset.

group, encode: the writer. read_group, read_matrix: the reader, offsets counted from the first byte of the whole input.
behind_zero: whether a nonzero factor would break the pattern of zeros. rest: the bytes behind the first matrix of a bundle.
"""
from number import EXPONENT_LIMIT, HIGH, LOW, ZERO
from words import Matrix

MOST_BYTES = 5
EXPONENT_CODES = 2 * EXPONENT_LIMIT + 1


class Refusal(Exception):
    def __init__(self, number, offset=0):
        super().__init__(number, offset)
        self.number, self.offset = number, offset


def group(number):
    """Seven bits a byte, lowest first, top bit set on all bytes but the last."""
    digits = [number & 127]
    while number := number >> 7:
        digits.append(number & 127)
    return bytes(digit | 128 for digit in digits[:-1]) + bytes(digits[-1:])


def read_group(data, start):
    """The group number at `start` and the offset behind it."""
    number = 0
    for place in range(MOST_BYTES):
        if start + place >= len(data):
            raise Refusal(2, len(data))
        byte = data[start + place]
        number += (byte & 127) << (7 * place)
        if byte < 128:
            if number >= HIGH or (place > 0 and byte == 0):
                raise Refusal(3, start)
            return number, start + place + 1
    raise Refusal(3, start)


def encode(matrix):
    parts = [group(matrix.n)]
    for m, e in matrix.factors:
        # Zero is the code 0 and has no mantissa.
        parts += [group(e + EXPONENT_LIMIT + 1), group(m - LOW)] if m else [group(0)]
    return b"".join(parts)


def behind_zero(factors, n):
    """Whether the factor that follows these stands behind a zero: of its column if it is below the diagonal, of its row if it is above."""
    i, j = divmod(len(factors), n)
    between = [factors[k * n + j] for k in range(j + 1, i)] if i > j else [factors[i * n + k] for k in range(i + 1, j)]
    return ZERO in between


def read_factor(data, start, factors, n):
    """The factor that follows those already read, and the offset behind it."""
    code, behind = read_group(data, start)
    if code > EXPONENT_CODES:
        raise Refusal(5, start)
    if code == 0:
        if len(factors) % (n + 1) == 0:
            raise Refusal(6, start)
        return ZERO, behind
    if behind_zero(factors, n):
        raise Refusal(16, start)
    part, end = read_group(data, behind)
    if part >= LOW:
        raise Refusal(5, behind)
    return (part + LOW, code - EXPONENT_LIMIT - 1), end


def read_matrix(data):
    """The first matrix of the bytes and the offset behind it."""
    n, place = read_group(data, 0)
    if not 1 <= n <= 8:
        raise Refusal(4, 0)
    factors = []
    for _ in range(n * n):
        number, place = read_factor(data, place, factors, n)
        factors.append(number)
    return Matrix(n, tuple(factors)), place


def read_single(data):
    """The only matrix of the bytes."""
    matrix, end = read_matrix(data)
    if end < len(data):
        raise Refusal(7, end)
    return matrix


def rest(data):
    try:
        return data[read_matrix(data)[1]:]
    except Refusal:
        return data
