"""Writes one of the lists of this folder to standard output.

    python3 make.py lengths MODEL      vectors of every pair of lengths in each suite, by the model
    python3 make.py published VECTORS  published vectors (SUITE .. TAG), with ROWS added
    python3 make.py crate VECTORS      the crate's answers (SUITE .. TAG), with ROWS added

MODEL is the path of model.py, a plain Python model of the four suites.
"""
import hashlib
import importlib.util
import itertools
import sys

KEY_AND_NONCE = {1: (16, 8), 2: (32, 8), 3: (16, 15), 4: (32, 15)}
AROUND_BLOCKS = (0, 1, 15, 16, 17, 31, 32)
VECTOR = "# SUITE KEY NONCE DATA MESSAGE CIPHERTEXT TAG ROWS ('-' for none)"


def fixed(length, *name):
    """Pseudo-random bytes that are the same in every run."""
    return hashlib.shake_128(" ".join(map(str, name)).encode()).digest(length)


def rows(suite, data, message):
    blocks = lambda n: (n + 15) // 16
    return blocks(data) + blocks(message) * (1 if suite <= 2 else 2) + 1


def spelled(text):
    return text.hex() or "-"


def lengths(model):
    yield "# Message lengths 0, 1, 15, 16, 17, 31, 32 with data of the same lengths in each suite, answers by model.py."
    yield VECTOR
    for suite, data, message in itertools.product(KEY_AND_NONCE, AROUND_BLOCKS, AROUND_BLOCKS):
        sizes = zip(("key", "nonce", "data", "message"), (*KEY_AND_NONCE[suite], data, message))
        inputs = [fixed(size, part, suite, data, message) for part, size in sizes]
        number, tag, count, ciphertext = model.seal(suite, *inputs)
        assert number == 0 and count == rows(suite, data, message)
        print(suite, *map(spelled, (*inputs, ciphertext, tag)), count)


def with_rows(vectors):
    with open(vectors, encoding="ascii") as lines:
        for line in lines:
            fields = line.split()
            if fields and not line.startswith("#"):
                suite, data, message = int(fields[0]), fields[3], fields[4]
                print(*fields, rows(suite, len(data) // 2, len(message) // 2))


def published(vectors):
    yield "# Vectors published with Deoxys v1.41, which has Deoxys-II alone here: suites 3 and 4. ROWS is a + 2m + 1."
    yield VECTOR
    with_rows(vectors)


def crate(vectors):
    yield "# Answers of the Rust crate deoxys 0.2.1: its own three files, unchanged, over stand-ins for their dependencies."
    yield "# Made in harness/ by `cargo run --release --offline -p compare -- --sample`, with DEOXYS_SRC naming the crate's src/."
    yield "# ROWS is a + m + 1 or a + 2m + 1: the crate counts no calls."
    yield VECTOR
    with_rows(vectors)


def loaded(path):
    spec = importlib.util.spec_from_file_location("model", path)
    model = importlib.util.module_from_spec(spec)
    spec.loader.exec_module(model)
    return model


def main(words):
    from_file = {"published": published, "crate": crate}
    if len(words) != 2 or words[0] not in {"lengths", *from_file}:
        sys.exit(__doc__)
    kind, path = words
    lines = from_file[kind](path) if kind in from_file else lengths(loaded(path))
    for comment in lines:
        print(comment)


main(sys.argv[1:])
