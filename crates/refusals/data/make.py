"""Writes one of the lists of this folder to standard output.

    python3 make.py refusals MODEL     calls with one fault and with two, and the number that the model gives
    python3 make.py limits MODEL       the greatest lengths and one byte more, by the model; takes about a minute and a half

MODEL is the path of model.py, a plain Python model of the four suites.
"""
import importlib.util
import itertools
import sys

KEY_AND_NONCE = {1: (16, 8), 2: (32, 8), 3: (16, 15), 4: (32, 15)}
LIMIT = 1_048_576

# Data and buffer follow a pattern, and key, nonce and tag are bytes of the data from these places on.
KEY_AT, NONCE_AT, TAG_AT = 0, 40, 64
DATA_SALT, BUFFER_SALT = 34, 51


def pattern(salt, length, start=0):
    return bytes((i % 256) ^ (i // 256 % 256) ^ salt for i in range(start, start + length))


def inputs_of(key, nonce, data):
    return pattern(DATA_SALT, key, KEY_AT), pattern(DATA_SALT, nonce, NONCE_AT), pattern(DATA_SALT, data)


def checksum(text):
    total = 0
    for byte in text:
        total = (total * 31 + byte) % 65521
    return total


def faults(suite):
    """For each refusal 1 to 6, which of suite and lengths is wrong then, and the wrong values tried."""
    key, nonce = KEY_AND_NONCE[suite]
    return {
        1: (0, (0, 5, 255)),
        2: (1, (0, key - 1, key + 1, 48 - key)),
        3: (2, (0, nonce - 1, nonce + 1, 23 - nonce)),
        4: (3, (LIMIT + 1,)),
        5: (4, (LIMIT + 1,)),
        6: (5, (0, 15, 17)),
    }


def attempts(suite, refusals):
    """Suite and lengths with each fault alone, then with each two; which wrong value is used goes round by suite and pair."""
    right = [suite, *KEY_AND_NONCE[suite], 18, 37, 16]
    wrong = {n: fault for n, fault in faults(suite).items() if n in refusals}
    for place, values in wrong.values():
        for value in values:
            yield [value if i == place else old for i, old in enumerate(right)]
    for turn, ((place, values), (other, others)) in enumerate(itertools.combinations(wrong.values(), 2), suite):
        attempt = list(right)
        attempt[place], attempt[other] = values[turn % len(values)], others[turn % len(others)]
        yield attempt


def sealing(model, suite, key, nonce, data, message):
    return model.seal(suite, *inputs_of(key, nonce, data), pattern(BUFFER_SALT, message))


def opening(model, suite, key, nonce, data, message, tag):
    buffer, wrong = pattern(BUFFER_SALT, message), pattern(DATA_SALT, tag, TAG_AT)
    return model.open_(suite, *inputs_of(key, nonce, data), buffer, wrong)


def refusals(model):
    yield "# Each refusal alone, then each two at once: the earlier number is given. The tag of every opening is wrong as well."
    yield "# seal SUITE KEY NONCE DATA MESSAGE NUMBER ROWS (lengths in bytes)"
    yield "# open SUITE KEY NONCE DATA CIPHERTEXT TAG NUMBER ROWS"
    for suite in KEY_AND_NONCE:
        for *attempt, _ in attempts(suite, range(1, 6)):
            number, _, count, _ = sealing(model, *attempt)
            print("seal", *attempt, number, count)
        wrong_tags = [[suite, *KEY_AND_NONCE[suite], *lengths, 16] for lengths in ((18, 37), (0, 0), (16, 32), (33, 1))]
        for attempt in [*attempts(suite, range(1, 7)), *wrong_tags]:
            number, count, _ = opening(model, *attempt)
            print("open", *attempt, number, count)


def limits(model):
    yield "# The greatest lengths of data and message, and one byte more of either and of both, answers by model.py."
    yield "# both SUITE KEY NONCE DATA MESSAGE NUMBER ROWS SUM TAG (lengths in bytes; SUM is the checksum of the buffer after sealing)"
    for suite, data, message in itertools.product((2, 4), (LIMIT, LIMIT + 1), (LIMIT, LIMIT + 1)):
        attempt = suite, *KEY_AND_NONCE[suite], data, message
        number, tag, count, buffer = sealing(model, *attempt)
        print("both", *attempt, number, count, checksum(buffer), tag.hex())


def loaded(path):
    spec = importlib.util.spec_from_file_location("model", path)
    model = importlib.util.module_from_spec(spec)
    spec.loader.exec_module(model)
    return model


def main(words):
    lists = {"refusals": refusals, "limits": limits}
    if len(words) != 2 or words[0] not in lists:
        sys.exit(__doc__)
    for comment in lists[words[0]](loaded(words[1])):
        print(comment)


main(sys.argv[1:])
