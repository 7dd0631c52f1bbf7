/* Calls the archive from C through include/calibration.h: seals, opens, opens a
 * forgery, seals by pieces, writes and reads records, and is refused, with NULL
 * for empty byte strings too. Exit status 1 if anything isn't as the header
 * says. */
#include "calibration.h"
#include "expect.h"
#include "records.h"

#include <stdio.h>
#include <string.h>

_Static_assert(offsetof(struct deoxys_sealed, tag) == 1, "layout");
_Static_assert(offsetof(struct deoxys_sealed, rows) == 24, "layout");
_Static_assert(sizeof(struct deoxys_sealed) == 32, "layout");
_Static_assert(offsetof(struct deoxys_opened, rows) == 8, "layout");
_Static_assert(sizeof(struct deoxys_opened) == 16, "layout");
_Static_assert(offsetof(struct deoxys_subkeys, rounds) == 272, "layout");
_Static_assert(sizeof(struct deoxys_subkeys) == 280, "layout");
_Static_assert(offsetof(struct deoxys_pieces, stage) == 1, "layout");
_Static_assert(offsetof(struct deoxys_pieces, keys) == 8, "layout");
_Static_assert(offsetof(struct deoxys_pieces, nonce) == 288, "layout");
_Static_assert(offsetof(struct deoxys_pieces, auth) == 296, "layout");
_Static_assert(offsetof(struct deoxys_pieces, checksum) == 312, "layout");
_Static_assert(offsetof(struct deoxys_pieces, total) == 328, "layout");
_Static_assert(offsetof(struct deoxys_pieces, rows) == 336, "layout");
_Static_assert(sizeof(struct deoxys_pieces) == 344, "layout");
_Static_assert(offsetof(struct deoxys_taken, number) == 344, "layout");
_Static_assert(sizeof(struct deoxys_taken) == 352, "layout");
_Static_assert(offsetof(struct deoxys_finished, number) == 344, "layout");
_Static_assert(offsetof(struct deoxys_finished, tag) == 345, "layout");
_Static_assert(offsetof(struct deoxys_finished, rows) == 368, "layout");
_Static_assert(sizeof(struct deoxys_finished) == 376, "layout");

enum { MESSAGE_LENGTH = 37, DATA_LENGTH = 18, LONGEST_KEY = 32, LONGEST_NONCE = 15 };

struct suite {
    uint8_t number;
    const char *name;
    size_t key_length, nonce_length, rows;
    const char *ciphertext, *tag;
};

/* The rows are those of 18 bytes of data (2 blocks) and 37 of message (3). The
 * ciphertexts and tags come from model.py, the Python model of the four suites
 * that crates/vectors/data/README.md speaks of, and not from the archive. */
static const struct suite suites[] = {
    {DEOXYS_I_128, "Deoxys-I-128", 16, 8, 6,
     "13a61646ae36b63e89f3a5d58da19fc50b7f19553ecbd844bc24371b0a8db3f4a2e9bc70d8",
     "40f908cb9d52bd6c041cb9a4f13b2bf8"},
    {DEOXYS_I_256, "Deoxys-I-256", 32, 8, 6,
     "248842ff380934bad1c5668490005e8008e36fa17b680fec2e73a15873bceb6b8d74948711",
     "2c677ef98a9fa757c82967cff0ded7f1"},
    {DEOXYS_II_128, "Deoxys-II-128", 16, 15, 9,
     "f844ea017ed7dc0f9401902d6a03f2afba8ecbade8f57cbc19262c6bc23852de66e38ac010",
     "01a5fc4d20fa1eb66971838795642ebb"},
    {DEOXYS_II_256, "Deoxys-II-256", 32, 15, 9,
     "51ccb7758094d78ab1798033dfc3b076d97aaac6fe22f656c8b46a35ba3df9b90bc7753041",
     "9c1a638e9f80f7ccc37025675adc45bf"},
};

/* The message is in the middle, and the bytes around it may not change. */
struct memory {
    uint8_t before[AROUND], message[MESSAGE_LENGTH], after[AROUND];
};

struct inputs {
    uint8_t key[LONGEST_KEY + 1], nonce[LONGEST_NONCE + 1], data[DATA_LENGTH];
};

static struct memory fresh_memory(void)
{
    struct memory memory;
    memset(&memory, 0xa5, sizeof memory);
    count_up(memory.message, MESSAGE_LENGTH, 0x40);
    return memory;
}

static struct inputs fresh_inputs(void)
{
    struct inputs inputs;
    count_up(inputs.key, sizeof inputs.key, 0x10);
    count_up(inputs.nonce, sizeof inputs.nonce, 0x20);
    count_up(inputs.data, sizeof inputs.data, 0x30);
    return inputs;
}

static void expect_inputs(const struct inputs *inputs)
{
    struct inputs fresh = fresh_inputs();
    expect(memcmp(inputs, &fresh, sizeof fresh) == 0, "a read-only input changed");
}

static void expect_surroundings(const struct memory *memory, const struct inputs *inputs)
{
    expect(all_are(memory->before, AROUND, 0xa5), "the bytes before the buffer changed");
    expect(all_are(memory->after, AROUND, 0xa5), "the bytes after the buffer changed");
    expect_inputs(inputs);
}

static struct deoxys_sealed seal_message(const struct suite *suite, struct memory *memory)
{
    struct inputs in = fresh_inputs();
    struct deoxys_sealed sealed =
        deoxys_seal(suite->number, null_if_empty(in.key, suite->key_length), suite->key_length,
                    null_if_empty(in.nonce, suite->nonce_length), suite->nonce_length, in.data,
                    sizeof in.data, memory->message, MESSAGE_LENGTH);
    expect_surroundings(memory, &in);
    return sealed;
}

static struct deoxys_opened open_message(const struct suite *suite, struct memory *memory,
                                         const uint8_t *tag, size_t tag_length)
{
    struct inputs in = fresh_inputs();
    struct deoxys_opened opened =
        deoxys_open(suite->number, null_if_empty(in.key, suite->key_length), suite->key_length,
                    null_if_empty(in.nonce, suite->nonce_length), suite->nonce_length, in.data,
                    sizeof in.data, memory->message, MESSAGE_LENGTH,
                    null_if_empty(tag, tag_length), tag_length);
    expect_surroundings(memory, &in);
    return opened;
}

static void seal_and_open(const struct suite *suite)
{
    struct memory memory = fresh_memory(), fresh = fresh_memory();
    struct deoxys_sealed sealed = seal_message(suite, &memory);
    printf("  sealed: number %d, %zu rows\n", sealed.number, sealed.rows);
    expect_bytes("ciphertext", memory.message, MESSAGE_LENGTH, suite->ciphertext);
    expect_bytes("tag       ", sealed.tag, sizeof sealed.tag, suite->tag);
    expect(sealed.number == DEOXYS_DONE, "sealing wasn't done");
    expect(sealed.rows == suite->rows, "rows of the sealing");

    struct deoxys_opened opened = open_message(suite, &memory, sealed.tag, sizeof sealed.tag);
    printf("  opened: number %d, %zu rows\n", opened.number, opened.rows);
    expect(opened.number == DEOXYS_DONE, "opening wasn't done");
    expect(opened.rows == suite->rows, "rows of the opening");
    expect(memcmp(memory.message, fresh.message, MESSAGE_LENGTH) == 0, "the message isn't back");
}

static void open_forgeries(const struct suite *suite)
{
    int all_zero = 1;
    for (size_t bit = 0; bit < 8 * DEOXYS_TAG_LENGTH; bit++) {
        struct memory memory = fresh_memory();
        struct deoxys_sealed sealed = seal_message(suite, &memory);
        sealed.tag[bit / 8] ^= (uint8_t)(1 << bit % 8);
        struct deoxys_opened opened = open_message(suite, &memory, sealed.tag, sizeof sealed.tag);
        expect(opened.number == DEOXYS_WRONG_TAG, "a forgery wasn't refused with 7");
        expect(opened.rows == suite->rows, "rows of a forgery");
        all_zero = all_zero && all_are(memory.message, MESSAGE_LENGTH, 0);
    }
    printf("  opened with each bit of the tag flipped: buffer %s\n",
           all_zero ? "zero to the last byte" : "NOT ZERO");
    expect(all_zero, "bytes are left after a forgery");
}

static struct deoxys_sealed seal_nothing(const struct suite *suite, const uint8_t *data,
                                         uint8_t *buffer)
{
    struct inputs in = fresh_inputs();
    return deoxys_seal(suite->number, in.key, suite->key_length, in.nonce, suite->nonce_length,
                       data, 0, buffer, 0);
}

static struct deoxys_opened open_nothing(const struct suite *suite, const uint8_t *data,
                                         uint8_t *buffer, const uint8_t *tag)
{
    struct inputs in = fresh_inputs();
    return deoxys_open(suite->number, in.key, suite->key_length, in.nonce, suite->nonce_length,
                       data, 0, buffer, 0, tag, DEOXYS_TAG_LENGTH);
}

static void seal_and_open_null(const struct suite *suite)
{
    uint8_t data[1] = {0}, buffer[1] = {0};
    struct deoxys_sealed sealed = seal_nothing(suite, NULL, NULL);
    struct deoxys_sealed not_null = seal_nothing(suite, data, buffer);
    struct deoxys_opened opened = open_nothing(suite, NULL, NULL, sealed.tag);
    expect(sealed.number == DEOXYS_DONE, "sealing NULL wasn't done");
    expect(sealed.rows == 1, "rows of sealing NULL");
    expect(memcmp(sealed.tag, not_null.tag, sizeof sealed.tag) == 0, "NULL has another tag");
    expect(opened.number == DEOXYS_DONE, "opening NULL wasn't done");
    expect(opened.rows == 1, "rows of opening NULL");

    sealed.tag[0] ^= 1;
    struct deoxys_opened forged = open_nothing(suite, NULL, NULL, sealed.tag);
    expect(forged.number == DEOXYS_WRONG_TAG, "a forgery of NULL wasn't refused with 7");
    expect(forged.rows == 1, "rows of a forgery of NULL");
    printf("  data and message NULL: sealed %d, opened %d, forged %d, %zu row\n", sealed.number,
           opened.number, forged.number, sealed.rows);
}

/* A suite that differs from a right one in one thing. */
static void refuse_sealing(struct suite wrong, uint8_t number, const char *what)
{
    struct memory memory = fresh_memory(), fresh = fresh_memory();
    struct deoxys_sealed sealed = seal_message(&wrong, &memory);
    printf("  %s: number %d, %zu rows\n", what, sealed.number, sealed.rows);
    expect(sealed.number == number, "another number was expected");
    expect(sealed.rows == 0, "a refusal counts rows");
    expect(all_are(sealed.tag, sizeof sealed.tag, 0), "a refusal gives a tag");
    expect(memcmp(&memory, &fresh, sizeof fresh) == 0, "a refusal changed the buffer");
}

static void refuse_opening(struct suite wrong, size_t tag_length, uint8_t number, const char *what)
{
    uint8_t tag[17] = {0};
    struct memory memory = fresh_memory(), fresh = fresh_memory();
    struct deoxys_opened opened = open_message(&wrong, &memory, tag, tag_length);
    printf("  %s: number %d, %zu rows\n", what, opened.number, opened.rows);
    expect(opened.number == number, "another number was expected");
    expect(opened.rows == 0, "a refusal counts rows");
    expect(memcmp(&memory, &fresh, sizeof fresh) == 0, "a refusal changed the buffer");
}

static void refuse(const struct suite *suite)
{
    struct suite other_number = *suite, longer_key = *suite, longer_nonce = *suite;
    other_number.number = 5;
    longer_key.key_length++;
    longer_nonce.nonce_length++;
    refuse_sealing(other_number, DEOXYS_BAD_SUITE, "suite 5");
    refuse_sealing(longer_key, DEOXYS_BAD_KEY_LENGTH, "key a byte too long");
    refuse_sealing(longer_nonce, DEOXYS_BAD_NONCE_LENGTH, "nonce a byte too long");
    refuse_opening(*suite, 15, DEOXYS_BAD_TAG_LENGTH, "tag of 15 bytes");
    refuse_opening(*suite, 17, DEOXYS_BAD_TAG_LENGTH, "tag of 17 bytes");
}

static void refuse_null(const struct suite *suite)
{
    struct suite no_key = *suite, no_nonce = *suite;
    no_key.key_length = 0;
    no_nonce.nonce_length = 0;
    refuse_sealing(no_key, DEOXYS_BAD_KEY_LENGTH, "key NULL to seal with");
    refuse_sealing(no_nonce, DEOXYS_BAD_NONCE_LENGTH, "nonce NULL to seal with");
    refuse_opening(no_key, 16, DEOXYS_BAD_KEY_LENGTH, "key NULL to open with");
    refuse_opening(no_nonce, 16, DEOXYS_BAD_NONCE_LENGTH, "nonce NULL to open with");
    refuse_opening(*suite, 0, DEOXYS_BAD_TAG_LENGTH, "tag NULL");
}

static void refuse_too_much(void)
{
    static uint8_t long_data[DEOXYS_LIMIT + 1], long_message[DEOXYS_LIMIT + 1];
    struct inputs in = fresh_inputs();
    struct deoxys_sealed data = deoxys_seal(DEOXYS_I_128, in.key, 16, in.nonce, 8, long_data,
                                            sizeof long_data, long_message, sizeof long_message);
    struct deoxys_sealed message = deoxys_seal(DEOXYS_I_128, in.key, 16, in.nonce, 8, long_data,
                                               DEOXYS_LIMIT, long_message, sizeof long_message);
    printf("a byte over the limit: number %d for data, %d for a message\n", data.number,
           message.number);
    expect(data.number == DEOXYS_DATA_TOO_LONG, "data over the limit");
    expect(message.number == DEOXYS_MESSAGE_TOO_LONG, "a message over the limit");
    expect(all_are(long_message, sizeof long_message, 0), "a refusal changed the buffer");
}

static struct deoxys_pieces begin_message(const struct suite *suite)
{
    struct inputs in = fresh_inputs();
    struct deoxys_pieces state =
        deoxys_begin(suite->number, null_if_empty(in.key, suite->key_length), suite->key_length,
                     null_if_empty(in.nonce, suite->nonce_length), suite->nonce_length, in.data,
                     sizeof in.data);
    expect_inputs(&in);
    return state;
}

/* The state that comes next, after a piece that must be taken. */
static struct deoxys_pieces take(struct deoxys_pieces state, uint8_t *piece, size_t length)
{
    struct deoxys_taken taken = deoxys_take(state, piece, length);
    expect(taken.number == DEOXYS_DONE, "a piece wasn't taken");
    return taken.pieces;
}

/* The next piece is a part of the message: nothing before or after it changes. */
static struct deoxys_pieces take_part(struct deoxys_pieces state, struct memory *memory,
                                      size_t start, size_t end)
{
    struct memory expected = *memory;
    uint8_t *piece = memory->message + start;
    struct deoxys_pieces next = take(state, start == end ? NULL : piece, end - start);
    memcpy(expected.message + start, piece, end - start);
    expect(memcmp(memory, &expected, sizeof expected) == 0, "bytes around a piece changed");
    return next;
}

static void expect_as_at_once(struct deoxys_finished finished, struct deoxys_sealed at_once)
{
    expect(finished.number == DEOXYS_DONE, "the finish wasn't done");
    expect(finished.rows == at_once.rows, "rows by pieces");
    expect(memcmp(finished.tag, at_once.tag, sizeof at_once.tag) == 0, "another tag by pieces");
}

static void seal_by_pieces(const struct suite *suite)
{
    /* Where each piece ends; the one that ends with the message is the last. */
    static const size_t cuttings[][5] = {
        {37}, {16, 37}, {32, 37}, {16, 32, 37}, {0, 16, 16, 32, 37}};
    size_t count = sizeof cuttings / sizeof cuttings[0];
    struct memory at_once = fresh_memory();
    struct deoxys_sealed sealed = seal_message(suite, &at_once);
    for (size_t i = 0; i < count; i++) {
        struct memory memory = fresh_memory();
        struct deoxys_pieces state = begin_message(suite);
        for (size_t start = 0, n = 0; start < MESSAGE_LENGTH; start = cuttings[i][n++])
            state = take_part(state, &memory, start, cuttings[i][n]);
        expect_as_at_once(deoxys_finish(state), sealed);
        expect(memcmp(&memory, &at_once, sizeof memory) == 0, "another ciphertext by pieces");
    }
    printf("    cut in %zu ways: compared with one call\n", count);
}

static void seal_null_by_pieces(const struct suite *suite)
{
    struct inputs in = fresh_inputs();
    struct deoxys_pieces state = deoxys_begin(suite->number, in.key, suite->key_length, in.nonce,
                                              suite->nonce_length, NULL, 0);
    struct deoxys_finished finished = deoxys_finish(take(state, NULL, 0));
    expect_as_at_once(finished, seal_nothing(suite, NULL, NULL));
    printf("    data and piece NULL: finished %d, %zu row\n", finished.number, finished.rows);
}

/* Field by field: what is between them means nothing. */
static int same_state(const struct deoxys_pieces *a, const struct deoxys_pieces *b)
{
    return a->number == b->number && a->stage == b->stage && a->keys.rounds == b->keys.rounds &&
           a->total == b->total && a->rows == b->rows &&
           memcmp(a->keys.bytes, b->keys.bytes, sizeof a->keys.bytes) == 0 &&
           memcmp(a->nonce, b->nonce, sizeof a->nonce) == 0 &&
           memcmp(a->auth, b->auth, sizeof a->auth) == 0 &&
           memcmp(a->checksum, b->checksum, sizeof a->checksum) == 0;
}

static void refuse_piece(const struct deoxys_pieces *state, size_t length, uint8_t number)
{
    struct memory memory = fresh_memory(), fresh = fresh_memory();
    struct deoxys_taken taken = deoxys_take(*state, length == 0 ? NULL : memory.message, length);
    expect(taken.number == number, "another number was expected for a piece");
    expect(same_state(&taken.pieces, state), "a refused piece changed the state");
    expect(memcmp(&memory, &fresh, sizeof fresh) == 0, "a refused piece changed");
}

static void refuse_finish(const struct deoxys_pieces *state, uint8_t number, const char *what)
{
    struct deoxys_finished finished = deoxys_finish(*state);
    printf("    %s: number %d, %zu rows\n", what, finished.number, finished.rows);
    expect(finished.number == number, "another number was expected for a finish");
    expect(finished.rows == 0, "a refused finish counts rows");
    expect(all_are(finished.tag, sizeof finished.tag, 0), "a refused finish gives a tag");
    expect(same_state(&finished.pieces, state), "a refused finish changed the state");
}

static void refuse_pieces(const struct deoxys_pieces *state, uint8_t number)
{
    refuse_piece(state, 0, number);
    refuse_piece(state, 16, number);
    refuse_piece(state, MESSAGE_LENGTH, number);
}

static void refuse_every_call(struct deoxys_pieces state, uint8_t number, const char *what)
{
    refuse_pieces(&state, number);
    refuse_finish(&state, number, what);
}

static void refuse_begin(struct suite wrong, uint8_t number, const char *what)
{
    struct deoxys_pieces state = begin_message(&wrong);
    expect(state.number == number, "another number was expected for a begin");
    refuse_every_call(state, number, what);
}

static void refuse_beginnings(const struct suite *suite)
{
    struct suite other_number = *suite, longer_key = *suite, longer_nonce = *suite;
    struct suite no_key = *suite, no_nonce = *suite;
    other_number.number = 5;
    longer_key.key_length++;
    longer_nonce.nonce_length++;
    no_key.key_length = 0;
    no_nonce.nonce_length = 0;
    refuse_begin(other_number, DEOXYS_BAD_SUITE, "begun with suite 5");
    refuse_begin(longer_key, DEOXYS_BAD_KEY_LENGTH, "begun with a key a byte too long");
    refuse_begin(longer_nonce, DEOXYS_BAD_NONCE_LENGTH, "begun with a nonce a byte too long");
    refuse_begin(no_key, DEOXYS_BAD_KEY_LENGTH, "begun with key NULL");
    refuse_begin(no_nonce, DEOXYS_BAD_NONCE_LENGTH, "begun with nonce NULL");
}

static void refuse_after_the_last(const struct suite *suite)
{
    struct memory memory = fresh_memory(), at_once = fresh_memory();
    struct deoxys_pieces closed = take_part(begin_message(suite), &memory, 0, MESSAGE_LENGTH);
    refuse_pieces(&closed, DEOXYS_NO_MORE);
    struct deoxys_finished finished = deoxys_finish(closed);
    expect_as_at_once(finished, seal_message(suite, &at_once));
    refuse_every_call(finished.pieces, DEOXYS_NO_MORE, "after the finish");
}

static void refuse_forged_states(const struct suite *suite)
{
    struct deoxys_pieces rounds = begin_message(suite), total = rounds, rows = rounds;
    struct deoxys_pieces stage = rounds, number = rounds, wiped = rounds;
    memset(&wiped, 0, sizeof wiped);
    rounds.keys.rounds = 17;
    total.total = SIZE_MAX;
    rows.rows = SIZE_MAX;
    stage.stage = 255;
    number.number = 200;
    number.stage = 255;
    refuse_every_call(wiped, DEOXYS_NO_MORE, "a state that was wiped");
    refuse_every_call(rounds, DEOXYS_NO_MORE, "a state of 17 rounds");
    refuse_every_call(total, DEOXYS_NO_MORE, "a state of as many bytes as there are");
    refuse_every_call(rows, DEOXYS_NO_MORE, "a state of as many rows as there are");
    refuse_every_call(stage, DEOXYS_NO_MORE, "a state of stage 255");
    refuse_every_call(number, 200, "a state of number 200 and stage 255");
}

static void refuse_too_long_a_piece(const struct suite *suite)
{
    static uint8_t by_pieces[DEOXYS_LIMIT + 1], at_once[DEOXYS_LIMIT];
    struct inputs in = fresh_inputs();
    memset(by_pieces, 0, sizeof by_pieces);
    memset(at_once, 0, sizeof at_once);
    struct deoxys_sealed sealed =
        deoxys_seal(suite->number, in.key, suite->key_length, in.nonce, suite->nonce_length,
                    in.data, sizeof in.data, at_once, sizeof at_once);
    struct deoxys_pieces state = begin_message(suite);
    struct deoxys_taken refused = deoxys_take(state, by_pieces, sizeof by_pieces);
    expect(refused.number == DEOXYS_MESSAGE_TOO_LONG, "a piece over the limit");
    expect(same_state(&refused.pieces, &state), "a piece over the limit changed the state");
    expect(all_are(by_pieces, sizeof by_pieces, 0), "a piece over the limit changed");

    state = take(refused.pieces, by_pieces, DEOXYS_LIMIT);
    refuse_piece(&state, 1, DEOXYS_MESSAGE_TOO_LONG);
    expect_as_at_once(deoxys_finish(take(state, NULL, 0)), sealed);
    expect(memcmp(by_pieces, at_once, sizeof at_once) == 0, "another ciphertext by pieces");
    expect(by_pieces[DEOXYS_LIMIT] == 0, "the byte over the limit changed");
    printf("    a piece over the limit: number %d\n", refused.number);
}

static void refuse_too_much_data(const struct suite *suite)
{
    static uint8_t long_data[DEOXYS_LIMIT + 1];
    struct inputs in = fresh_inputs();
    struct deoxys_pieces state =
        deoxys_begin(suite->number, in.key, suite->key_length, in.nonce, suite->nonce_length,
                     long_data, sizeof long_data);
    expect(state.number == DEOXYS_DATA_TOO_LONG, "another number was expected for a begin");
    refuse_every_call(state, DEOXYS_DATA_TOO_LONG, "begun with data over the limit");
}

static void by_pieces(const struct suite *suite)
{
    printf("  by pieces\n");
    if (suite->number > DEOXYS_I_256) {
        refuse_begin(*suite, DEOXYS_BAD_SUITE, "begun with Deoxys-II");
        return;
    }
    seal_by_pieces(suite);
    seal_null_by_pieces(suite);
    refuse_beginnings(suite);
    refuse_after_the_last(suite);
    refuse_forged_states(suite);
    refuse_too_much_data(suite);
    refuse_too_long_a_piece(suite);
}

int main(void)
{
    for (size_t i = 0; i < sizeof suites / sizeof suites[0]; i++) {
        printf("suite %d, %s\n", suites[i].number, suites[i].name);
        seal_and_open(&suites[i]);
        open_forgeries(&suites[i]);
        refuse(&suites[i]);
        seal_and_open_null(&suites[i]);
        refuse_null(&suites[i]);
        by_pieces(&suites[i]);
    }
    refuse_too_much();
    records();
    printf("C: %d mismatches\n", mismatches);
    return mismatches == 0 ? 0 : 1;
}
