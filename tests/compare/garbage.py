"""Lines that are no requests, and some that still are.

ODD_LINES: chosen by hand, about every rule of the line's form. garbled: one of them, or a request with a small change.
"""
from console_model import doubtful

SAMPLES = (
    "load 3 01ca0700", "write 0 13", "drop 2", "product 0 1 2", "inverse 0 1", "converse 2 3", "transpose 4 5", "submatrix 0 3 3 1",
    "minor 0 1 1", "carry 0 2 1,2147483648,-31 -1,2147483648,-31", "reversals 1,2147483648,0 0,0,0", "rest 01ca0700ff", "show 0",
    "carry 1 4", "load 0 -", "rest -", "reversals -9223372036854775808,9223372036854775807,-9223372036854775807",
    "add 1,2147483648,-31 1,2147483649,-63", "multiply 1,4294967295,0 1,4294967295,1000", "divide 1,2147483648,-31 1,3221225472,-30",
    "build 3 1 3 7", "build 6 4294967290 4294967295", "build 1 18446744073709551615",
    "sentence 38 11 0 6", "sentence 0 23 7", "sentence 512 22 4294967295 7 6 5 4 3 2 1", "sentence 140 19 4294967295" + " 4294967295" * 7,
)
ODD_LINES = (
    "", " ", "-", "0", "load", "load 0", "load 0 ", "load 0  -", "load 0 0", "load 0 0G", "load 0 CA", "load 0 ca0", "load 0 - -",
    "load - -", "load x -", "load -1 -", "Load 0 -", "LOAD 0 -", "loaded 0 -", "load\t0 -", "load 0 -\r", "load 0 --", "load 0 0x01",
    "rest", "rest ", "rest -- ", "rest a", "rest AB", "rest 0a 0b", "write 0", "write 0 513", "write 0 600", "write 0 -1",
    "write 0 1 1", "drop", "drop 0 0", "drop a", "product 0 1", "product 0 1 2 3", "inverse 0", "inverse 0 1 2", "converse", "transpose 1",
    "transpose one two", "submatrix 0 1 1", "submatrix 0 256 1 2", "submatrix 0 1 256 2", "submatrix 0 -1 1 2", "minor 0 1",
    "minor 0 256 1", "minor 0 1 300", "minor 0 1 1 1", "carry", "carry 0", "carry 0 513", "carry 0 513 0,0,0", "carry 0 2 0,0",
    "carry 0 2 0,0,0,0", "carry 0 2 0;0;0", "carry 0 2 ,,", "carry 0 2 1,,0", "carry 0 2 0,0,", "carry 0 2 -", "carry 0 2 0,0,0 ",
    "carry 0 2  0,0,0", "carry 0 2 1,-2147483648,0", "carry 0 2 a,0,0", "carry 0 2 1,2147483648,--1", "carry 0 2 1,2147483648,-",
    "reversals ", "reversals -", "reversals 0", "reversals 0,0,0,", "reversals 0,0,0  0,0,0", "show", "show 0 0", "show -1", "show show",
    "show 8", "show 4294967295", "reversals 1,-5,0", "reversals -1,-2147483648,-31", "reversals 0,-1,0",
    "carry 0 2 1,9223372036854775807,0", "reversals 9223372036854775808,0,0", "reversals 1,9223372036854775808,0",
    "reversals 1,2147483648,-9223372036854775809",
    "add", "add ", "add  1,2147483648,0 1,2147483648,0", "add 1,2147483648,0", "add 1,2147483648,0 ", "add 1,2147483648,0 1,2147483648,0 ",
    "add 1,2147483648,0  1,2147483648,0", "add 1,2147483648,0 1,2147483648,0 1,2147483648,0", "add - -", "add 0 0", "add 0,0,0 0,0,0", "Add 0,0,0 0,0,0",
    "multiply", "multiply -", "multiply 0,0,0", "multiply 0,0,0 0,0,0 0,0,0", "multiply 1,2147483648 0,1,2147483648", "multiplied 0,0,0 0,0,0",
    "multiply 1,2147483648,0,1,2147483648,0", "multiply 1,2147483648,0 1,9223372036854775808,0", "multiply 1,9223372036854775807,0 1,2147483648,0",
    "divide", "divide 1 3", "divide 1,2147483648,0 1,2147483648,0 0", "divide 1,2147483648,0 1,2147483648,-9223372036854775809",
    "divide 0,0,0 1,2147483648,0", "divide 1,2147483648,0 0,0,0", "divide 1,2147483648,0 -1,2147483648,0", "number 2147483648 -31 rest 0 0",
    "divide 1,2147483648,0 1,2147483648,-9223372036854775808", "add 0 1,2147483648,0 1,2147483648,0", "multiply 4294967297,2147483648,0 1,2147483648,0",
    "build", "build ", "build 3", "build 3 ", "build  3 1", "build 3  1", "build 3 1 3 7 ", "build - 1", "build -1 1", "build x 1", "Build 3 1 3",
    "built 3 1 3", "build 3 -", "build 3 -1", "build 3 -0", "build 3 +1", "build 3 1 -3", "build 3 1 x", "build 3 1,3,7", "build 3 1.0", "build 3 1e3",
    "build 3 0x1", "build 3 1_0", "build 3 1\t3", "build 3 1 3\r", "build 3 1 \xb2", "build 3 1 3\x00", "build 3 18446744073709551615",
    "build 3 18446744073709551616", "build 3 1 18446744073709551619 7", "build 3 1 3 18446744073709551616", "build 9 18446744073709551616",
    "build 3 -18446744073709551615", "build 3 1 " + "3" * 30, "build 3 " + "9" * 4088, "build 3 " + "9" * 4089, "build " + "9" * 30 + " 1 3 7",
    "build 8 1 3 7", "build 8 0", "build 256 1 3 7", "build 65536 1 3 7", "build 4294967295 1 3 7", "build 3 1 2 3 4 5 6 7 8",
    "build 3 " + " ".join(map(str, range(1, 17))), "build 3 " + " ".join(map(str, range(1, 18))), "build 3" + " 0" * 16, "build 3" + " 0" * 17,
    "build 8" + " 1" * 17,
    "sentence", "sentence ", "sentence 38", "sentence 38 ", "sentence 38 11", "sentence 38 11 ", "sentence 38 11 0", "sentence 38 11 0 ", "sentence  38 11 0",
    "sentence 38  11 0", "sentence 38 11  0", "sentence 38 11 0  6", "sentence 38 11 0 6 ", "sentence 38 11 0 6  ", " sentence 38 11 0 6",
    "sentence 38 11 0 6\r", "sentence\t38 11 0 6", "sentence 38 11 0\t6", "sentence 38 11 0 6\x00", "sentence 38 11 0 \xb2", "Sentence 38 11 0 6",
    "SENTENCE 38 11 0 6", "sentences 38 11 0 6", "sentenc 38 11 0 6", "sentence -1 11 0 6", "sentence 38 -11 0 6", "sentence 38 11 -1 6",
    "sentence 38 11 -0 6", "sentence 38 11 0 -6", "sentence 38 11 0 -0", "sentence 38 -0 0", "sentence 38 +11 0 6", "sentence 38 11 +0 6",
    "sentence 38 11 0 +6", "sentence - 11 0 6", "sentence 38 - 0 6", "sentence 38 11 - 6", "sentence 38 11 0 -", "sentence 38 11 0 6 -", "sentence x 11 0 6",
    "sentence 38 x 0 6", "sentence 38 11 x 6", "sentence 38 11 0 x", "sentence 38 11 0 6,7", "sentence 38 11 0 6.", "sentence 38 11 0 1e3",
    "sentence 38 0xb 0 6", "sentence 38 b 0 6", "sentence a5 11 0 6", "sentence 38 11 0 6 x", "sentence 512 11 0 6", "sentence 513 11 0 6",
    "sentence 513 23 0", "sentence 600 11 0", "sentence 65574 11 0 6", "sentence 4294967334 11 0 6", "sentence 18446744073709551654 11 0 6",
    "sentence 38 4294967295 0 6", "sentence 38 4294967296 0 6", "sentence 38 4294967307 0 6", "sentence 38 18446744073709551627 0 6",
    "sentence 47 11 4294967295 6", "sentence 47 11 4294967296 6", "sentence 47 11 18446744073709551616 6", "sentence 47 11 0 4294967295",
    "sentence 47 11 0 4294967296", "sentence 47 11 0 4294967302", "sentence 47 11 0 18446744073709551622", "sentence 0 0 4294967296",
    "sentence 0 0 0 4294967296", "sentence 0 4294967296 0", "sentence 512 11 0" + " 6" * 7, "sentence 512 11 0" + " 6" * 8, "sentence 512 11 0" + " 6" * 16,
    "sentence 512 11 0" + " 6" * 17, "sentence 0 0 0" + " 0" * 16, "sentence 0 0 0" + " 0" * 17, "sentence 512 11 0" + " 6" * 15 + " 4294967296",
    "sentence 512 11 0" + " 6" * 16 + " x", "sentence 512 11 0" + " 4294967295" * 16, "sentence 512 11 0" + " 4294967295" * 17,
    "sentence 512 11 0 " + "9" * 40, "sentence 512 11 " + "9" * 4080, "sentence 512 11 " + "9" * 4081, "sentence " + "9" * 30 + " 11 0",
    "sentence 512 " + "1" * 30 + " 0", "sentence 38 11 0 source place empty 6", "sentence 38 11 at 0 6", "sentence 11 at 0", "wrote 36 72656675736564",
    "refused 11 at 0 source place empty 6", "source place empty", "sentence refused 11 at 0",
    "show " + "9" * 30, "drop " + "1" * 4000, "write 0 " + "8" * 40, "minor 0 " + "1" * 30 + " 1", "quit", "help", "exit 0", "#",
    "bound 11", "refused 1 at 0", "\x00", "show 0\x00", "\xff\xfe", "show \xb2", "sh\xf6w 0", "reversals " + " ".join(["0,0,0"] * 17),
    "reversals " + " ".join(["0,0,0"] * 16), "carry 0 2 " + " ".join(["1,2147483648,0"] * 16),
    "carry 0 2 " + " ".join(["1,2147483648,0"] * 17), "reversals 1," + "2" * 30 + ",0", "reversals 1,2147483648," + "9" * 30,
    "reversals -" + "9" * 30 + ",2147483648,0", "load 99 " + "00" * 2044, "load 9 " + "00" * 2045, "rest " + "01" * 2045, "rest " + "01" * 2046,
    "x" * 4096, "x" * 4097, "y" * 9000, "show 0" + " " * 4090, "show 0" + " " * 4091, "load 0 " + "ff" * 4000,
)


def cut(rng, line):
    return line[:rng.randrange(len(line))]


def doubled(rng, line):
    place = rng.randrange(len(line) + 1)
    return line[:place] + rng.choice(" ,-0a\t\r\x00\x7f\xe9") + line[place:]


def replaced(rng, line):
    place = rng.randrange(len(line))
    return line[:place] + chr(rng.choice((rng.randrange(32, 127), rng.randrange(11, 256)))) + line[place + 1:]


def words_shuffled(rng, line):
    parts = line.split(" ")
    rng.shuffle(parts)
    return " ".join(parts)


def word_doubled(rng, line):
    parts = line.split(" ")
    place = rng.randrange(len(parts))
    return " ".join(parts[:place] + parts[place:place + 1] + parts[place:])


def noise(rng, line):
    return "".join(chr(rng.choice((rng.randrange(32, 127), rng.randrange(11, 256)))) for _ in range(rng.randrange(60)))


GARBLERS = (cut, doubled, doubled, replaced, replaced, words_shuffled, word_doubled, noise,
            lambda rng, line: rng.choice(ODD_LINES), lambda rng, line: rng.choice(ODD_LINES))


def garbled(rng):
    """A line that the console's description decides."""
    while True:
        line = rng.choice(GARBLERS)(rng, rng.choice(SAMPLES))
        if "\n" not in line and not doubtful(line):
            return line
