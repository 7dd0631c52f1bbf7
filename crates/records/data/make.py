"""Writes one of the lists of this folder to standard output.

    python3 make.py written     what the writer writes and refuses, and the associated data of a sealed row
    python3 make.py read        records read at a place, and cut after every byte
    python3 make.py damaged     records with a fault, alone and in pairs
    python3 make.py bundles     bundles, at their greatest, one record and one byte over, damaged, and cut after every byte

What is wanted is by the model below: document 02's request b, sentence by sentence.
"""
import hashlib
import itertools
import sys

# ---- the model

NONCE = {1: 8, 2: 8, 3: 15, 4: 15}  # document 01: the suites' nonces
MOST_RECORDS = 64
NUMBERED = {1: 4, 2: 20}  # the fields whose bytes are a number, from one on: the greatest


def allowed(suite, tag):
    """The least and the greatest length of a field."""
    nonce = NONCE.get(suite, 0)
    return {1: (1, 1), 2: (2, 2), 3: (nonce, nonce), 4: (0, 1024), 5: (0, 4096), 6: (16, 16)}[tag]


def in_range(tag, body):
    return tag not in NUMBERED or 1 <= int.from_bytes(body, "big") <= NUMBERED[tag]


def read(text, place):
    """The answers of the reader of one record: number, suite, row, where nonce, note and ciphertext lie and how long they are, where the
    tag lies, and how long the record is; or the number alone."""
    at, suite, found = place, None, []
    for tag in range(1, 7):
        if len(text) - at < 3:
            return [10]
        if text[at] != tag:
            return [11]
        length = int.from_bytes(text[at + 1 : at + 3], "big")
        least, greatest = allowed(suite, tag)
        if not least <= length <= greatest:
            return [12]
        at += 3
        if len(text) - at < length:
            return [10]
        body = text[at : at + length]
        if not in_range(tag, body):
            return [13]
        suite = body[0] if tag == 1 else suite
        found.append((at, length, body))
        at += length
    row, nonce, note, cipher, last = found[1:]
    return [0, suite, int.from_bytes(row[2], "big"), *nonce[:2], *note[:2], *cipher[:2], last[0], at - place]


def read_bundle(text):
    """The answers of the reader of a bundle: number and count; or the number alone."""
    at, records = 0, 0
    while at < len(text):
        if records == MOST_RECORDS:
            return [15]
        number, *others = read(text, at)
        if number:
            return [number]
        at, records = at + others[-1], records + 1
    return [0, records]


def refusal(suite, bodies):
    """The first field, in their order, that the writer refuses; bodies are by tag."""
    for tag, body in bodies.items():
        least, greatest = allowed(suite, tag)
        if not least <= len(body) <= greatest:
            return 12
        if not in_range(tag, body):
            return 13
    return 0


def written(number, text, room):
    """The bytes that a writer writes, and its answers: number and length; or none, and the number alone, last 24."""
    number = number or (24 if room < len(text) else 0)
    return (Text(), number) if number else (text, 0, len(text))


# ---- texts, and how a list spells them

SALT = 34
MOST_SPELLED = 256  # bytes in hexadecimal to a part


def pattern(length):
    return bytes(i % 256 ^ i // 256 % 256 ^ SALT for i in range(length))


class Text:
    """Bytes in parts: bytes as they are, and numbers, each a run of so many bytes of the pattern."""

    def __init__(self, *parts):
        self.parts = parts

    def __add__(self, other):
        if self.parts and other.parts and isinstance(self.parts[-1], bytes) and isinstance(other.parts[0], bytes):
            return Text(*self.parts[:-1], self.parts[-1] + other.parts[0], *other.parts[1:])
        return Text(*self.parts, *other.parts)

    def bytes(self):
        return b"".join(part if isinstance(part, bytes) else pattern(part) for part in self.parts)

    def __len__(self):
        return sum(len(part) if isinstance(part, bytes) else part for part in self.parts)

    def words(self):
        for part in self.parts:
            if isinstance(part, int):
                yield f"~{part}"
            else:
                yield from (part[i : i + MOST_SPELLED].hex() for i in range(0, len(part), MOST_SPELLED))

    def __str__(self):
        return "+".join(self.words()) or "-"


def fixed(length, *name):
    """Pseudo-random bytes that are the same in every run; a long text goes on as the pattern."""
    text = hashlib.shake_128(" ".join(map(str, name)).encode()).digest(min(length, 8 if length > 16 else 16))
    return Text(*(part for part in (text, length - len(text)) if part))


# ---- records

SHORT_NOTE, SHORT_CIPHER = 2, 3


def content(suite, row, note=SHORT_NOTE, cipher=SHORT_CIPHER):
    """The bodies of a record's fields by their tags."""
    sizes = {3: NONCE[suite], 4: note, 5: cipher, 6: 16}
    texts = {tag: fixed(size, "records", tag, suite, row, note, cipher) for tag, size in sizes.items()}
    return {1: Text(bytes([suite])), 2: Text(row.to_bytes(2, "big")), **texts}


def fields(bodies):
    """Fields as they stand: tag, length, bytes."""
    return [(tag, len(body), body) for tag, body in bodies.items()]


def joined(parts):
    text = Text()
    for tag, length, body in parts:
        text = text + Text(bytes([tag]) + length.to_bytes(2, "big")) + body
    return text


def record(suite, row, *sizes):
    return joined(fields(content(suite, row, *sizes)))


# ---- lines


def write_line(suite, row, texts, room):
    """A call of the writer; texts are nonce, note, ciphertext and tag, and the room is the destination's length."""
    bodies = {1: Text(bytes([suite])), 2: Text(row.to_bytes(2, "big")), **dict(zip(range(3, 7), texts))}
    number = refusal(suite, {tag: body.bytes() for tag, body in bodies.items()})
    text, *answers = written(number, joined(fields(bodies)) if number == 0 else Text(), room)
    print("write", suite, row, *texts, room, text, *answers)
    return answers[0]


def data_line(row, note, room):
    """A call of the writer of a row's data, which has no suite and no other text."""
    head = row.to_bytes(2, "big")
    text, *answers = written(refusal(None, {2: head, 4: note.bytes()}), Text(head) + note, room)
    print("data", 0, row, Text(), note, Text(), Text(), room, text, *answers)
    return answers[0]


def reading_lines(word, text, lengths, place, answers):
    """A line for each run of lengths with the same answers."""
    for wanted, run in itertools.groupby(lengths, answers):
        run = list(run)
        print(word, text, run[0], run[-1], place, *wanted)


def read_lines(text, place=0, shortest=None, want=None):
    """The record at a place of the first so many bytes, from the shortest to all; the first number is known where it is given."""
    given, place_given = text.bytes(), place if place != "max" else 2**64 - 1
    lengths = range(len(given) if shortest is None else shortest, len(given) + 1)
    if want is not None:
        assert read(given[: lengths[0]], place_given)[0] == want, (str(text), want)
    reading_lines("read", text, lengths, place, lambda n: read(given[:n], place_given))


def bundle_lines(text, shortest=None, times=1, after=None, want=None):
    """A bundle of so many times the text and then what comes after it."""
    again = [f">{len(text) * times}"] if times > 1 else []
    spelled = "+".join([*text.words(), *again, *(after.words() if after else [])]) or "-"
    given = text.bytes() * times + (after.bytes() if after else b"")
    lengths = range(len(given) if shortest is None else shortest, len(given) + 1)
    if want is not None:
        assert read_bundle(given) == want, (spelled, want)
    reading_lines("bundle", spelled, lengths, 0, lambda n: read_bundle(given[:n]))


# ---- the edges

SUITES, NOTES, CIPHERS, ROWS = (1, 2, 3, 4), (0, 1, 1024), (0, 1, 4096), (1, 20)
LONGEST = 5172


def edges():
    """Suite, row, and the lengths of note and ciphertext: the least and the greatest of each, and then every other row."""
    for turn, (suite, note, cipher) in enumerate(itertools.product(SUITES, NOTES, CIPHERS)):
        yield suite, ROWS[turn % 2], note, cipher
    for row in range(2, 20):
        yield SUITES[row % 4], row, SHORT_NOTE, SHORT_CIPHER


# ---- written


def write_faults(suite):
    """For each field in its order, and last the room, the wrong values tried: a number, or a length; the room's is what it lacks."""
    nonce = NONCE[suite]
    return [
        (1, (0, 5, 255, 9, 129)),
        (2, (0, 21, 65535, 256, 5120, 263)),
        (3, (nonce - 1, nonce + 1, 23 - nonce, 0)),
        (4, (1025,)),
        (5, (4097,)),
        (6, (15, 17, 0)),
        (7, (1, 1000000)),
    ]


def faulty_write(suite, wrong):
    """The call of the writer with what is wrong, by place; and which number is wanted of it by the order of the places."""
    suite_given, row = wrong.get(1, suite), wrong.get(2, 7)
    sizes = (wrong.get(tag, size) for tag, size in ((3, NONCE[suite]), (4, SHORT_NOTE), (5, SHORT_CIPHER), (6, 16)))
    texts = [fixed(size, "refused", tag, suite) for tag, size in enumerate(sizes, 3)]
    whole = 21 + sum(map(len, texts))
    number = write_line(suite_given, row, texts, max(whole - wrong.get(7, 0), 0))
    assert number == {1: 13, 2: 13, 3: 12, 4: 12, 5: 12, 6: 12, 7: 24}[min(wrong)]


def write_refusals():
    """Each fault alone in each suite; then each two, three at once, and all."""
    for suite in SUITES:
        for place, values in write_faults(suite):
            for value in values:
                faulty_write(suite, {place: value})
        for turn, pair in enumerate(itertools.combinations(write_faults(suite), 2), suite):
            faulty_write(suite, {place: values[turn % len(values)] for place, values in pair})
        faulty_write(suite, {place: values[suite % len(values)] for place, values in write_faults(suite)})
        faulty_write(suite, {place: values[suite % len(values)] for place, values in write_faults(suite)[suite:]})


def row_data():
    for row, note in itertools.product(ROWS, NOTES):
        text = fixed(note, "data", row, note)
        for room in (note + 2, note + 9, note + 1, 0):
            assert data_line(row, text, room) == (0 if room > note + 1 else 24)
    for row in range(2, 20):
        data_line(row, fixed(SHORT_NOTE, "data", row), SHORT_NOTE + 2)
    for row, note, room in itertools.product((0, 21, 65535, 256, 5120, 263), (0, 1025), (0, 1027)):
        assert data_line(row, fixed(note, "data", row, note), room) == 13
    for room in (0, 1026, 1027, 1028):
        assert data_line(7, fixed(1025, "data"), room) == 12


def written_list():
    print("# The writer: every edge with just enough room, with more, and with a byte less; then what it refuses; then the row's data.")
    print("# write SUITE ROW NONCE NOTE CIPHERTEXT TAG ROOM BYTES NUMBER [LENGTH] ('-' for none)")
    print("# data 0 ROW - NOTE - - ROOM BYTES NUMBER [LENGTH]")
    for turn, (suite, row, note, cipher) in enumerate(edges()):
        bodies = content(suite, row, note, cipher)
        whole = 37 + NONCE[suite] + note + cipher
        for room in (whole, whole + 1 + turn % 40, whole - 1) if turn < 36 else (whole,):
            assert write_line(suite, row, list(bodies.values())[2:], room) == (24 if room < whole else 0)
    write_refusals()
    row_data()


# ---- read


def read_list():
    print("# The reader of one record: every edge, at place 0 and at another; records cut after every byte; places past the end.")
    print("# read BYTES FROM TO PLACE NUMBER [SUITE ROW NONCE ITS-LENGTH NOTE ITS-LENGTH CIPHERTEXT ITS-LENGTH TAG LENGTH]")
    for turn, edge in enumerate(edges()):
        text, place = record(*edge), 1 + turn * 7 % 64
        read_lines(text + fixed(3, "after", turn), 0, len(text), want=0)
        read_lines(Text(place) + text + Text(bytes([1, 0, 1])), place, place + len(text), want=0)
    assert len(record(4, 20, 1024, 4096)) == LONGEST
    for suite in SUITES:
        short = record(suite, 20)
        read_lines(short, 0, 0, want=10)
        read_lines(Text(9) + short, 9, 0, want=10)
        read_lines(record(suite, 1, 1024, 4096), 0, 0, want=10)
        for place in (len(short), len(short) + 1, 999999999, "max"):
            read_lines(short, place, want=10)
        for place in (1, 4, 9, len(short) - 19, len(short) - 3, len(short) - 1):
            read_lines(short, place)
    for place in (0, 1, 2, "max"):
        read_lines(Text(), place, want=10)


# ---- damaged

TAG, LENGTH, RANGE = 11, 12, 13


def wrong_lengths(tag, n):
    """One less, one more, the bytes exchanged, too great, by one high bit too."""
    most = {4: (1025, 1280), 5: (4097, 4352)}.get(tag, (0, 256 + n))
    return sorted({n - 1, n + 1, n * 256, 65535, n + 0x2000, n + 0x4000, n + 0x8000, *most})


WRONG_NUMBERS = {1: (0, 5, 255, 9, 129), 2: (0, 21, 256, 5120, 65535, 263)}


def spoilt(parts, tag, kind, turn=0):
    """A record's fields with one fault in the field with this tag."""
    parts = list(parts)
    _, length, body = parts[tag - 1]
    if kind == TAG:
        wrong = (tag - 1, tag + 1, tag ^ 8, tag + 128, 255)
        parts[tag - 1] = (wrong[turn % len(wrong)], length, body)
    elif kind == LENGTH:
        wrong = [n for n in wrong_lengths(tag, length) if n > {4: 1024, 5: 4096}.get(tag, -1)]
        parts[tag - 1] = (parts[tag - 1][0], wrong[turn % len(wrong)], body)
    else:
        value = WRONG_NUMBERS[tag][turn % len(WRONG_NUMBERS[tag])]
        parts[tag - 1] = (parts[tag - 1][0], parts[tag - 1][1], Text(value.to_bytes(len(body), "big")))
    return parts


def damaged_line(text, turn, want=None):
    """At place 0, and every other one at place 4."""
    place = turn % 2 * 4
    read_lines((Text(place) if place else Text()) + text, place, want=want)


def alone():
    """Each field's tag, length and number wrong in every way."""
    for tag in range(1, 7):
        parts = fields(content(1 + tag % 4, 7))
        _, length, body = parts[tag - 1]
        for turn in range(5):
            damaged_line(joined(spoilt(parts, tag, TAG, turn)), turn, TAG)
        for turn, wrong in enumerate(wrong_lengths(tag, length)):
            known = LENGTH if tag not in (4, 5) or wrong > {4: 1024, 5: 4096}[tag] else None
            damaged_line(joined([*parts[: tag - 1], (tag, wrong, body), *parts[tag:]]), turn, known)
        for turn in range(len(WRONG_NUMBERS.get(tag, ()))):
            damaged_line(joined(spoilt(parts, tag, RANGE, turn)), turn, RANGE)


def cut_in(parts, tag, left):
    """The record's bytes up to so many of the field with this tag."""
    before, field = joined(parts[: tag - 1]), joined(parts[tag - 1 : tag]).bytes()
    return before + Text(field[:left])


def in_one_field():
    """Two faults in a field: the check that comes first answers."""
    for tag in range(1, 7):
        good = fields(content(1 + (tag + 1) % 4, 20))
        kinds = (TAG, LENGTH, RANGE) if tag in NUMBERED else (TAG, LENGTH)
        for kind, other in itertools.combinations(kinds, 2):
            damaged_line(joined(spoilt(spoilt(good, tag, other, 1), tag, kind, 1)), tag, kind)
        for kind, lefts in ((TAG, (1, 2)), (LENGTH, (2,)), (RANGE, (4,) if tag == 2 else ())):
            for left in lefts:
                damaged_line(cut_in(spoilt(good, tag, kind, -1), tag, left), left, 10)
        for kind, left in itertools.product((TAG, LENGTH), sorted({3, 2 + good[tag - 1][1]})):
            damaged_line(cut_in(spoilt(good, tag, kind, 1), tag, left), left, kind)


def in_two_fields():
    """A fault in a field and another in a later one: the earlier field answers."""
    turn = 0
    for tag, later in itertools.combinations(range(1, 7), 2):
        for kind in (TAG, LENGTH, RANGE) if tag in NUMBERED else (TAG, LENGTH):
            good = fields(content(1 + turn % 4, 1))
            others = [k for k in (TAG, LENGTH, RANGE) if k != kind and (k != RANGE or later in NUMBERED)]
            both = spoilt(spoilt(good, later, others[turn % len(others)], turn), tag, kind, turn)
            damaged_line(joined(both), turn, kind)
            damaged_line(cut_in(spoilt(good, tag, kind, turn), later, 1 + turn % 3), turn, kind)
            turn += 1


def in_order():
    """Fields left out, doubled, exchanged; one more after the last; the nonce and the suite of other suites."""
    for suite in SUITES:
        parts = fields(content(suite, 7))
        for turn, i in enumerate(range(6)):
            damaged_line(joined([*parts[:i], *parts[i + 1 :]]), turn, 10 if i == 5 else TAG)
            damaged_line(joined([*parts[: i + 1], *parts[i:]]), turn, 0 if i == 5 else TAG)
        for turn, i in enumerate(range(5)):
            damaged_line(joined([*parts[:i], parts[i + 1], parts[i], *parts[i + 2 :]]), turn, TAG)
        damaged_line(joined([*parts, (7, 0, Text())]), 0, 0)
        for other in SUITES:
            exchanged = [(1, 1, Text(bytes([other]))), *parts[1:]]
            damaged_line(joined(exchanged), other, 0 if NONCE[other] == NONCE[suite] else LENGTH)


def damaged_list():
    print("# Damaged records: one fault in every field, two in a field, two in two fields, fields left out, doubled and exchanged.")
    print("# read BYTES FROM TO PLACE NUMBER [SUITE ROW NONCE ITS-LENGTH NOTE ITS-LENGTH CIPHERTEXT ITS-LENGTH TAG LENGTH]")
    alone()
    in_one_field()
    in_two_fields()
    in_order()


# ---- bundles


def damaged_ones():
    """Records with a fault, and its number."""
    good = fields(content(3, 9))
    for tag, kind in ((1, TAG), (2, LENGTH), (2, RANGE), (1, RANGE), (3, LENGTH), (5, LENGTH), (6, TAG)):
        yield joined(spoilt(good, tag, kind, 1)), kind
    yield cut_in(good, 5, 3), TAG  # the ciphertext is then the start of what follows; at the end bytes are missing
    yield joined(good) + Text(b"\x07\x00\x00"), TAG


def bundles_list():
    print("# Bundles: from none to 65 records, bytes after the last, a damaged record, bundles cut after every byte, the longest.")
    print("# bundle BYTES FROM TO 0 NUMBER [RECORDS]")
    bundle_lines(Text(), want=[0, 0])
    shortest, one, longest = record(1, 1, 0, 0), record(4, 20), record(3, 20, 1024, 4096)
    four = sum((record(suite, row) for suite, row in zip(SUITES, (20, 3, 2, 1))), Text())
    for text in (shortest, one, longest):
        for times in (1, 2, 63, 64):
            bundle_lines(text, times=times, want=[0, times])
        bundle_lines(text, times=65, want=[15])
        for after in (Text(b"\x00"), Text(b"\x01"), Text(b"\xff"), shortest, fixed(16, "garbage")):
            bundle_lines(text, times=64, after=after, want=[15])
        bundle_lines(text, times=63, after=one, want=[0, 64])
    bundle_lines(four, times=16, want=[0, 64])
    bundle_lines(four, times=17, want=[15])
    assert len(longest) * 64 == 331008
    for bad, number in damaged_ones():
        bundle_lines(bad + one, want=[number])
        bundle_lines(one, times=31, after=bad + one, want=[number])
        bundle_lines(one, times=63, after=bad)
        bundle_lines(one, times=63, after=bad + one + one)
        bundle_lines(one, times=64, after=bad, want=[15])
        bundle_lines(four + bad)
    bundle_lines(four, 0, want=[0, 4])
    bundle_lines(one + shortest, 0)
    bundle_lines(shortest, 45 * 63 - 2, times=64, after=Text(b"\x01\x00"), want=[15])
    bundle_lines(longest, LONGEST * 63 - 2, times=63, after=Text(longest.bytes()[:40]))


LISTS = {"written": written_list, "read": read_list, "damaged": damaged_list, "bundles": bundles_list}

if len(sys.argv) != 2 or sys.argv[1] not in LISTS:
    sys.exit(__doc__)
LISTS[sys.argv[1]]()
