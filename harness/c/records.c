#include "records.h"

#include "calibration.h"
#include "expect.h"

#include <stdio.h>
#include <string.h>

_Static_assert(offsetof(struct calibration_written, length) == 8, "layout");
_Static_assert(sizeof(struct calibration_written) == 16, "layout");
_Static_assert(offsetof(struct calibration_record, suite) == 1, "layout");
_Static_assert(offsetof(struct calibration_record, row) == 2, "layout");
_Static_assert(offsetof(struct calibration_record, nonce) == 8, "layout");
_Static_assert(offsetof(struct calibration_record, nonce_length) == 16, "layout");
_Static_assert(offsetof(struct calibration_record, note) == 24, "layout");
_Static_assert(offsetof(struct calibration_record, note_length) == 32, "layout");
_Static_assert(offsetof(struct calibration_record, cipher) == 40, "layout");
_Static_assert(offsetof(struct calibration_record, cipher_length) == 48, "layout");
_Static_assert(offsetof(struct calibration_record, tag) == 56, "layout");
_Static_assert(offsetof(struct calibration_record, length) == 64, "layout");
_Static_assert(sizeof(struct calibration_record) == 72, "layout");
_Static_assert(offsetof(struct calibration_bundle, records) == 8, "layout");
_Static_assert(sizeof(struct calibration_bundle) == 16, "layout");

_Static_assert(CALIBRATION_BUNDLE_RECORDS * CALIBRATION_RECORD_LIMIT == CALIBRATION_BUNDLE_LIMIT,
               "the header's limits");

enum { EXAMPLES = 4, SHORTEST = 37 + 8 };

/* What is written: the texts count up, the nonce from 0x20 on, the note from
 * 0x30, the ciphertext from 0x40 and the tag from 0x50. */
struct content {
    uint8_t suite;
    uint16_t row;
    size_t nonce_length, note_length, cipher_length, tag_length;
};

/* A content and its record, put together by hand. */
struct example {
    struct content content;
    const char *hex;
};

static const struct example examples[EXAMPLES] = {
    {{DEOXYS_I_128, 1, 8, 3, 5, 16},
     "010001" "01" "020002" "0001" "030008" "2021222324252627" "040003" "303132"
     "050005" "4041424344" "060010" "505152535455565758595a5b5c5d5e5f"},
    {{DEOXYS_I_256, 20, 8, 0, 5, 16},
     "010001" "02" "020002" "0014" "030008" "2021222324252627" "040000"
     "050005" "4041424344" "060010" "505152535455565758595a5b5c5d5e5f"},
    {{DEOXYS_II_128, 7, 15, 3, 0, 16},
     "010001" "03" "020002" "0007" "03000f" "202122232425262728292a2b2c2d2e" "040003" "303132"
     "050000" "060010" "505152535455565758595a5b5c5d5e5f"},
    {{DEOXYS_II_256, 12, 15, 1, 1, 16},
     "010001" "04" "020002" "000c" "03000f" "202122232425262728292a2b2c2d2e" "040001" "30"
     "050001" "40" "060010" "505152535455565758595a5b5c5d5e5f"},
};

static const struct content longest = {
    DEOXYS_II_256,          CALIBRATION_ROW_LIMIT,    15,
    CALIBRATION_NOTE_LIMIT, CALIBRATION_CIPHER_LIMIT, DEOXYS_TAG_LENGTH};

static const struct content shortest = {DEOXYS_I_128, 1, 8, 0, 0, DEOXYS_TAG_LENGTH};

/* With room for a byte too many in each. */
struct texts {
    uint8_t nonce[16], note[CALIBRATION_NOTE_LIMIT + 1], cipher[CALIBRATION_CIPHER_LIMIT + 1];
    uint8_t tag[DEOXYS_TAG_LENGTH + 1];
};

/* The destination is a part in the middle, and the bytes around it may not
 * change. */
struct memory {
    uint8_t before[AROUND], bytes[CALIBRATION_BUNDLE_LIMIT + CALIBRATION_RECORD_LIMIT],
        after[AROUND];
};

static struct memory memory;

static void fresh_memory(void)
{
    memset(&memory, 0xa5, sizeof memory);
}

static struct texts fresh_texts(void)
{
    struct texts texts;
    count_up(texts.nonce, sizeof texts.nonce, 0x20);
    count_up(texts.note, sizeof texts.note, 0x30);
    count_up(texts.cipher, sizeof texts.cipher, 0x40);
    count_up(texts.tag, sizeof texts.tag, 0x50);
    return texts;
}

/* Into so many bytes from a place on. What is after the record, or after the
 * place if there is none, hasn't been written before and must not be now. */
static struct calibration_written write_content(const struct content *content, size_t place,
                                                size_t room)
{
    struct texts in = fresh_texts(), fresh = fresh_texts();
    uint8_t *destination = memory.bytes + place;
    struct calibration_written written = calibration_write_record(
        content->suite, content->row, null_if_empty(in.nonce, content->nonce_length),
        content->nonce_length, null_if_empty(in.note, content->note_length), content->note_length,
        null_if_empty(in.cipher, content->cipher_length), content->cipher_length,
        null_if_empty(in.tag, content->tag_length), content->tag_length,
        room == 0 ? NULL : destination, room);
    size_t end = place + written.length;
    expect(memcmp(&in, &fresh, sizeof fresh) == 0, "a text to write changed");
    expect(all_are(memory.before, AROUND, 0xa5), "the bytes before the destination changed");
    expect(written.length <= room, "the record is longer than its destination");
    expect(all_are(memory.bytes + end, sizeof memory.bytes - end, 0xa5),
           "the bytes after the record changed");
    expect(all_are(memory.after, AROUND, 0xa5), "the bytes after the destination changed");
    return written;
}

/* What was read at a place is the content, to the last byte of its texts. */
static void expect_content(const uint8_t *bytes, size_t length, size_t at,
                           const struct content *content)
{
    struct texts texts = fresh_texts();
    struct calibration_record record = calibration_read_record(bytes, length, at);
    expect(record.number == CALIBRATION_DONE, "reading wasn't done");
    expect(record.suite == content->suite, "another suite was read");
    expect(record.row == content->row, "another row was read");
    expect(record.nonce_length == content->nonce_length, "the nonce has another length");
    expect(record.note_length == content->note_length, "the note has another length");
    expect(record.cipher_length == content->cipher_length, "the ciphertext has another length");
    expect(record.nonce == at + 12, "the nonce has another place");
    expect(record.note == record.nonce + record.nonce_length + 3, "the note has another place");
    expect(record.cipher == record.note + record.note_length + 3,
           "the ciphertext has another place");
    expect(record.tag == record.cipher + record.cipher_length + 3, "the tag has another place");
    expect(record.length == record.tag + DEOXYS_TAG_LENGTH - at, "the record has another length");
    if (record.number != CALIBRATION_DONE || at + record.length > length)
        return;
    expect(memcmp(bytes + record.nonce, texts.nonce, record.nonce_length) == 0, "another nonce");
    expect(memcmp(bytes + record.note, texts.note, record.note_length) == 0, "another note");
    expect(memcmp(bytes + record.cipher, texts.cipher, record.cipher_length) == 0,
           "another ciphertext");
    expect(memcmp(bytes + record.tag, texts.tag, DEOXYS_TAG_LENGTH) == 0, "another tag");
}

static void write_and_read(const struct example *example)
{
    const struct content *content = &example->content;
    size_t length = strlen(example->hex) / 2;
    fresh_memory();
    struct calibration_written written = write_content(content, 0, length);
    printf("  suite %d: number %d, %zu bytes\n", content->suite, written.number, written.length);
    expect(written.number == CALIBRATION_DONE, "writing wasn't done");
    expect(written.length == length, "the record has another length");
    expect_bytes("record", memory.bytes, length, example->hex);
    expect_content(memory.bytes, length, 0, content);
    expect_content((const uint8_t *)&memory, sizeof memory, AROUND, content);
}

static void write_and_read_longest(void)
{
    fresh_memory();
    struct calibration_written written = write_content(&longest, 0, CALIBRATION_RECORD_LIMIT);
    printf("  longest: number %d, %zu bytes\n", written.number, written.length);
    expect(written.number == CALIBRATION_DONE, "writing the longest wasn't done");
    expect(written.length == CALIBRATION_RECORD_LIMIT, "the longest has another length");
    expect_content(memory.bytes, written.length, 0, &longest);
}

static void refuse_writing(struct content wrong, size_t room, uint8_t number, const char *what)
{
    fresh_memory();
    struct calibration_written written = write_content(&wrong, 0, room);
    printf("  %s: number %d, %zu bytes\n", what, written.number, written.length);
    expect(written.number == number, "another number was expected");
    expect(written.length == 0, "a refused record has a length");
}

static void refuse_to_write(void)
{
    struct content suite = longest, row = longest, no_row = longest, nonce = longest;
    struct content no_nonce = longest, note = longest, cipher = longest, tag = longest;
    struct content no_tag = longest, all = longest;
    suite.suite = 5;
    row.row = CALIBRATION_ROW_LIMIT + 1;
    no_row.row = 0;
    nonce.nonce_length = 8;
    no_nonce.nonce_length = 0;
    note.note_length++;
    cipher.cipher_length++;
    tag.tag_length++;
    no_tag.tag_length = 0;
    all.row = 256;
    all.nonce_length = all.tag_length = 0;
    all.note_length++;
    refuse_writing(suite, 0, CALIBRATION_OUT_OF_RANGE, "suite 5, no room");
    refuse_writing(row, 0, CALIBRATION_OUT_OF_RANGE, "row 21, no room");
    refuse_writing(no_row, 0, CALIBRATION_OUT_OF_RANGE, "row 0, no room");
    refuse_writing(nonce, 0, CALIBRATION_BAD_LENGTH, "nonce of another suite, no room");
    refuse_writing(no_nonce, 0, CALIBRATION_BAD_LENGTH, "nonce NULL, no room");
    refuse_writing(note, 0, CALIBRATION_BAD_LENGTH, "note a byte too long, no room");
    refuse_writing(cipher, 0, CALIBRATION_BAD_LENGTH, "ciphertext a byte too long, no room");
    refuse_writing(tag, 0, CALIBRATION_BAD_LENGTH, "tag a byte too long, no room");
    refuse_writing(no_tag, 0, CALIBRATION_BAD_LENGTH, "tag NULL, no room");
    refuse_writing(all, CALIBRATION_RECORD_LIMIT, CALIBRATION_OUT_OF_RANGE,
                   "row 256 and wrong lengths after it");
    refuse_writing(longest, 0, CALIBRATION_NO_ROOM, "destination NULL");
    refuse_writing(longest, CALIBRATION_RECORD_LIMIT - 1, CALIBRATION_NO_ROOM,
                   "destination a byte too short");
}

static void refuse_reading(const uint8_t *bytes, size_t length, size_t at, uint8_t number,
                           const char *what)
{
    struct calibration_record record = calibration_read_record(bytes, length, at);
    expect(record.number == number, what);
    expect(record.suite == 0 && record.row == 0 && record.nonce == 0 && record.nonce_length == 0 &&
               record.note == 0 && record.note_length == 0 && record.cipher == 0 &&
               record.cipher_length == 0 && record.tag == 0 && record.length == 0,
           "a refused reading gives a record");
}

static void expect_bundle(const uint8_t *bytes, size_t length, uint8_t number, size_t records,
                          const char *what)
{
    struct calibration_bundle bundle = calibration_read_bundle(bytes, length);
    expect(bundle.number == number, what);
    expect(bundle.records == records, "another count of records was expected");
}

/* Each byte of a record that isn't one of a text, changed: its tag, both bytes
 * of its length, and the suite and the row. */
static void refuse_changes(void)
{
    static const struct change {
        size_t place;
        uint8_t value, number;
    } changes[] = {
        {0, 2, 11},  {1, 1, 12},   {2, 2, 12},   {3, 0, 13},   {3, 5, 13},  {4, 1, 11},
        {5, 1, 12},  {6, 1, 12},   {7, 1, 13},   {8, 0, 13},   {8, 21, 13}, {9, 4, 11},
        {10, 1, 12}, {11, 15, 12}, {20, 5, 11},  {21, 4, 10},  {21, 5, 12}, {22, 1, 11},
        {23, 6, 11}, {24, 1, 10},  {24, 16, 10}, {24, 17, 12}, {25, 1, 11}, {26, 0, 11},
        {27, 1, 12}, {28, 15, 12}, {28, 17, 12},
    };
    size_t count = sizeof changes / sizeof changes[0];
    fresh_memory();
    struct calibration_written written = write_content(&shortest, 0, SHORTEST);
    expect(written.length == SHORTEST, "the shortest record has another length");
    for (size_t i = 0; i < count; i++) {
        uint8_t changed[SHORTEST];
        memcpy(changed, memory.bytes, SHORTEST);
        changed[changes[i].place] = changes[i].value;
        refuse_reading(changed, SHORTEST, 0, changes[i].number, "another number for a change");
        expect_bundle(changed, SHORTEST, changes[i].number, 0, "another number for a bundle");
    }
    printf("  %zu changes of a record refused\n", count);
}

static void read_bundle_of_three(void)
{
    const struct content *contents[] = {&examples[0].content, &longest, &examples[2].content};
    size_t places[4] = {0};
    fresh_memory();
    for (size_t i = 0; i < 3; i++) {
        size_t room = sizeof memory.bytes - places[i];
        places[i + 1] = places[i] + write_content(contents[i], places[i], room).length;
    }
    size_t end = places[3];
    for (size_t i = 0; i < 3; i++) {
        expect_content(memory.bytes, end, places[i], contents[i]);
        expect_bundle(memory.bytes, places[i], CALIBRATION_DONE, i, "a bundle up to a record");
    }
    expect_bundle(memory.bytes, end, CALIBRATION_DONE, 3, "a bundle of three");
    for (size_t cut = places[2] + 1; cut < end; cut++) {
        expect_bundle(memory.bytes, cut, CALIBRATION_BYTES_MISSING, 0, "a bundle cut short");
        refuse_reading(memory.bytes, cut, places[2], CALIBRATION_BYTES_MISSING,
                       "a record cut short");
    }
    expect_bundle(memory.bytes, end + 1, CALIBRATION_BYTES_MISSING, 0, "a bundle and a byte");
    expect_bundle(memory.bytes, end + 3, CALIBRATION_WRONG_FIELD, 0, "a bundle and three bytes");
    refuse_reading(memory.bytes, end, 1, CALIBRATION_WRONG_FIELD, "a place inside a record");
    refuse_reading(memory.bytes, end, end, CALIBRATION_BYTES_MISSING, "the end");
    refuse_reading(memory.bytes, end, end + 1, CALIBRATION_BYTES_MISSING, "past the end");
    refuse_reading(memory.bytes, end, SIZE_MAX, CALIBRATION_BYTES_MISSING, "far past the end");
    printf("  a bundle of three in %zu bytes, and every cut of its last record\n", end);
}

static void read_null(void)
{
    expect_bundle(NULL, 0, CALIBRATION_DONE, 0, "a bundle of no bytes");
    refuse_reading(NULL, 0, 0, CALIBRATION_BYTES_MISSING, "a record of no bytes");
    refuse_reading(NULL, 0, SIZE_MAX, CALIBRATION_BYTES_MISSING, "a record past no bytes");
}

/* Up to 64 records of one kind, and then one more. */
static void read_many(const struct content *content, size_t record_length)
{
    size_t end = 0;
    fresh_memory();
    for (size_t records = 1; records <= CALIBRATION_BUNDLE_RECORDS; records++) {
        end += write_content(content, end, record_length).length;
        expect_bundle(memory.bytes, end, CALIBRATION_DONE, records, "a bundle of up to 64");
    }
    size_t last = end;
    end += write_content(content, end, record_length).length;
    expect_bundle(memory.bytes, last + 1, CALIBRATION_TOO_MANY_RECORDS, 0, "64 and a byte");
    expect_bundle(memory.bytes, end, CALIBRATION_TOO_MANY_RECORDS, 0, "65 records");
    expect_content(memory.bytes, end, last, content);
    printf("  64 records in %zu bytes, and 65 refused\n", last);
    expect(last == CALIBRATION_BUNDLE_RECORDS * record_length, "the bundle has another length");
}

void records(void)
{
    printf("records\n");
    for (size_t i = 0; i < EXAMPLES; i++)
        write_and_read(&examples[i]);
    write_and_read_longest();
    refuse_to_write();
    refuse_changes();
    read_bundle_of_three();
    read_null();
    read_many(&shortest, SHORTEST);
    read_many(&longest, CALIBRATION_RECORD_LIMIT);
}
