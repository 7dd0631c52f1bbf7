"""Writes one of the lists of this folder to standard output.

    python3 make.py cuttings MODEL     every cutting of 0 to 5 blocks and a part, in both suites, answers by the model
    python3 make.py stages MODEL       a refused begin, and what is refused after a last piece and after the finish
    python3 make.py limits MODEL       totals at the limit and above it

MODEL is the path of model.py, a plain Python model of the four suites. It has no pieces: the numbers of pieces and finishes are those of
`ByPieces` below, document 02's request a in a few lines.
"""
import hashlib
import importlib.util
import itertools
import sys

KEY_AND_NONCE = {1: (16, 8), 2: (32, 8)}
TWO_PASSES = {3: (16, 15), 4: (32, 15)}
BLOCK, LIMIT = 16, 1_048_576
WHOLE, PARTS = range(6), (0, 1, 15)
DATA = (0, 1, 15, 16, 17, 33)
FINISH = "f"


def fixed(length, *name):
    """Pseudo-random bytes that are the same in every run."""
    return hashlib.shake_128(" ".join(map(str, name)).encode()).digest(length)


def spelled(text):
    return text.hex() or "-"


# ---- cuttings


def in_ones_and_twos(blocks):
    """Every way to write so many blocks as pieces of one and two."""
    if blocks == 0:
        yield []
    for first in (1, 2):
        if first <= blocks:
            for others in in_ones_and_twos(blocks - first):
                yield [first * BLOCK, *others]


def without_empty_pieces(blocks, part):
    """The part is a piece of its own, and then joined to the last whole piece."""
    for whole in in_ones_and_twos(blocks):
        yield [*whole, part] if part else whole
        if part and whole:
            yield [*whole[:-1], whole[-1] + part]


def every_cutting(blocks, part):
    """Each without an empty piece, and with one at each place that is not after the part."""
    for pieces in without_empty_pieces(blocks, part):
        yield pieces
        for place in range(len(pieces) if part else len(pieces) + 1):
            yield [*pieces[:place], 0, *pieces[place:]]


def cuttings(model):
    yield "# Every cutting of 0 to 5 blocks and a part of 0, 1 or 15 bytes into pieces of 1 and 2 blocks, without and with an empty one, answers by model.py."
    yield "# cut SUITE KEY NONCE DATA MESSAGE CIPHERTEXT TAG ROWS SCRIPT.. ('-' for none)"
    for suite, (turn, blocks), (other, part) in itertools.product(KEY_AND_NONCE, enumerate(WHOLE), enumerate(PARTS)):
        data, message = DATA[(turn + 2 * other + 3 * suite) % len(DATA)], BLOCK * blocks + part
        sizes = zip(("key", "nonce", "data", "message"), (*KEY_AND_NONCE[suite], data, message))
        inputs = [fixed(size, "pieces", name, suite, blocks, part) for name, size in sizes]
        number, tag, rows, ciphertext = model.seal(suite, *inputs)
        assert number == 0
        scripts = [",".join(map(str, [*pieces, FINISH])) for pieces in every_cutting(blocks, part)]
        assert len(set(scripts)) == len(scripts)
        print("cut", suite, *map(spelled, (*inputs, ciphertext, tag)), rows, *scripts)


# ---- stages and limits


class ByPieces:
    """Which number a call is answered with: document 02, request a."""

    def __init__(self, begin):
        self.begin, self.last_taken, self.finished, self.total = begin, False, False, 0

    def answer(self, step):
        if self.begin:
            return self.begin
        if self.finished or (self.last_taken and step != FINISH):
            return 8
        if step == FINISH:
            self.finished = True
        elif self.total + step > LIMIT:
            return 5
        else:
            self.total, self.last_taken = self.total + step, step % BLOCK != 0
        return 0


def begin_number(model, suite, key, nonce, data):
    return 1 if suite in TWO_PASSES else model.check(suite, bytes(key), bytes(nonce), bytes(data), b"")


def stage(model, attempt, *scripts):
    """A line with these scripts, the numbers put in."""
    begin = begin_number(model, *attempt)
    words = []
    for steps in scripts:
        state, parts = ByPieces(begin), []
        for step in steps:
            number = state.answer(step)
            parts.append(f"{step}:{number}" if number else f"{step}")
        words.append(",".join(parts))
    print("stage", *attempt, begin, *words)


def refused_begins(suite):
    """Each fault of begin alone, then each two; which wrong value is used goes round by suite and pair."""
    key, nonce = KEY_AND_NONCE[suite]
    right = [suite, key, nonce, 18]
    faults = [(0, (0, 3, 4, 5, 255)), (1, (0, key - 1, key + 1, 48 - key)), (2, (0, nonce - 1, nonce + 1, 15)), (3, (LIMIT + 1,))]
    for place, values in faults:
        for value in values:
            yield [value if i == place else old for i, old in enumerate(right)]
    for turn, ((place, values), (other, others)) in enumerate(itertools.combinations(faults, 2), suite):
        attempt = list(right)
        attempt[place], attempt[other] = values[turn % len(values)], others[turn % len(others)]
        yield attempt


AFTER = (0, 1, 16)  # the pieces that are refused after a last piece, and after the finish


def stages(model):
    yield "# A begin that is refused, then pieces and finishes; the last piece and the finish, and what is refused after them."
    yield "# stage SUITE KEY NONCE DATA NUMBER SCRIPT.. (lengths in bytes; the number is that of begin)"
    two_passes = [[suite, *lengths, 18] for suite, lengths in TWO_PASSES.items()]
    for attempt in [*refused_begins(1), *refused_begins(2), *two_passes]:
        stage(model, attempt, (0, 1, 16, 37, FINISH, 16, FINISH), (FINISH, 0, FINISH), (LIMIT + 1, FINISH))
    for suite, data in itertools.product(KEY_AND_NONCE, (0, 16, 18)):
        attempt = [suite, *KEY_AND_NONCE[suite], data]
        after_finish = (FINISH, *AFTER, FINISH)
        stage(model, attempt, (FINISH, FINISH), *((FINISH, piece) for piece in AFTER), after_finish)
        stage(model, attempt, *((*pieces, *after_finish) for pieces in ((0,), (16,), (32,), (0, 0), (16, 16), (32, 0, 16))))
        stage(model, attempt, *((last, piece, FINISH) for last in (1, 15, 17, 31) for piece in AFTER))
        stage(model, attempt, *((*whole, last, *AFTER, *after_finish) for whole in ((), (0,), (16,), (16, 32)) for last in (1, 15, 17, 31)))


def limits(model):
    yield "# Totals at the limit and above it, in several cuttings; what is refused there, and what is taken after that."
    yield "# stage SUITE KEY NONCE DATA NUMBER SCRIPT.. (lengths in bytes; the number is that of begin)"
    half = LIMIT // 2
    at_the_limit = [
        (LIMIT, FINISH, 0, 1, FINISH),
        (LIMIT, 1, 16, 0, FINISH, 1),
        (half, half, 1, 17, 0, 0, FINISH),
        (LIMIT - 16, 17, 32, 16, 1, 16, 0, FINISH),
        (LIMIT - 32, 16, 17, 16, 1, FINISH),
        (16, LIMIT - 16, 16, FINISH),
    ]
    refused_then_taken = [
        (LIMIT + 1, FINISH),
        (LIMIT + 1, LIMIT, FINISH),
        (LIMIT + 1, LIMIT + 16, 0, 5, FINISH),
        (half, half + 1, half, FINISH),
        (half, half + 16, half - 1, 1, FINISH),
        (16, LIMIT - 15, LIMIT, 16, 1, FINISH),
    ]
    eight_before_five = [
        (LIMIT - 1, 1, 2, 18, FINISH),
        (LIMIT - 16, 17, 15, 1, 2, 0, FINISH, 2),
        (5, LIMIT + 1, LIMIT, LIMIT - 5, FINISH),
        (16, 5, LIMIT + 1, FINISH, LIMIT + 1, FINISH),
        (FINISH, LIMIT + 1, LIMIT),
        (LIMIT, FINISH, 1, 16, 17, FINISH),
    ]
    for suite in KEY_AND_NONCE:
        for scripts in (at_the_limit, refused_then_taken, eight_before_five):
            stage(model, [suite, *KEY_AND_NONCE[suite], 18], *scripts)
        stage(model, [suite, *KEY_AND_NONCE[suite], LIMIT], (LIMIT, 0, 1, FINISH, FINISH), (LIMIT - 1, FINISH), (LIMIT - 16, 15, FINISH))


def loaded(path):
    spec = importlib.util.spec_from_file_location("model", path)
    model = importlib.util.module_from_spec(spec)
    spec.loader.exec_module(model)
    return model


def main(words):
    lists = {"cuttings": cuttings, "stages": stages, "limits": limits}
    if len(words) != 2 or words[0] not in lists:
        sys.exit(__doc__)
    for comment in lists[words[0]](loaded(words[1])):
        print(comment)


main(sys.argv[1:])
