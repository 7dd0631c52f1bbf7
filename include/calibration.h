/* The interface of the static library libcalibration.a.
 *
 * Cipher operations begin with deoxys_: Deoxys-I and Deoxys-II, sealing and
 * opening in place, with a detached tag; and Deoxys-I sealing by pieces.
 * Those on the file that sealed rows are kept in begin with calibration_: the
 * house record, written and read, and a bundle of records, read.
 *
 * A byte string is a pointer and then a count. A pointer may be NULL where
 * its count is 0. The buffer, the piece or the destination may not overlap
 * any other argument; every other byte string is only read. */
#ifndef CALIBRATION_H
#define CALIBRATION_H

#include <stddef.h>
#include <stdint.h>

#ifdef __cplusplus
extern "C" {
#endif

/* The suites. */
enum {
    DEOXYS_I_128 = 1,  /* key 16 bytes, nonce  8 bytes */
    DEOXYS_I_256 = 2,  /* key 32 bytes, nonce  8 bytes */
    DEOXYS_II_128 = 3, /* key 16 bytes, nonce 15 bytes */
    DEOXYS_II_256 = 4  /* key 32 bytes, nonce 15 bytes */
};

/* The most bytes of data, and the most bytes of a message. */
#define DEOXYS_LIMIT ((size_t)1048576)

#define DEOXYS_TAG_LENGTH ((size_t)16)

/* The number in an answer of deoxys_seal and deoxys_open. They are checked in
 * the order 1 to 7, and the first that applies is given; 0 where none does.
 *
 *            buffer             tag of a sealing   rows
 *   0        the result         the tag            the block cipher calls made
 *   1 to 6   as it was          16 zero bytes      0
 *   7        every byte zero    (opening only)     the block cipher calls made
 */
enum {
    DEOXYS_DONE = 0,
    DEOXYS_BAD_SUITE = 1,        /* the suite isn't 1 to 4 */
    DEOXYS_BAD_KEY_LENGTH = 2,   /* not the suite's */
    DEOXYS_BAD_NONCE_LENGTH = 3, /* not the suite's */
    DEOXYS_DATA_TOO_LONG = 4,    /* associated data over DEOXYS_LIMIT */
    DEOXYS_MESSAGE_TOO_LONG = 5, /* message or ciphertext over DEOXYS_LIMIT */
    DEOXYS_BAD_TAG_LENGTH = 6,   /* opening: not DEOXYS_TAG_LENGTH */
    DEOXYS_WRONG_TAG = 7,        /* opening: not the tag that was computed */
    DEOXYS_NO_MORE = 8           /* by pieces: the state takes no such call */
};

/* With a and m the blocks of data and message, a partial one counted, the
 * rows of 0 and 7 are a + m + 1 in Deoxys-I and a + 2m + 1 in Deoxys-II. */
struct deoxys_sealed {
    uint8_t number;
    uint8_t tag[16];
    size_t rows;
};

struct deoxys_opened {
    uint8_t number;
    size_t rows;
};

/* Enciphers the message in the buffer and gives its tag. */
struct deoxys_sealed deoxys_seal(uint8_t suite,
                                 const uint8_t *key, size_t key_length,
                                 const uint8_t *nonce, size_t nonce_length,
                                 const uint8_t *data, size_t data_length,
                                 uint8_t *buffer, size_t buffer_length);

/* Deciphers the ciphertext in the buffer if the tag is the right one. */
struct deoxys_opened deoxys_open(uint8_t suite,
                                 const uint8_t *key, size_t key_length,
                                 const uint8_t *nonce, size_t nonce_length,
                                 const uint8_t *data, size_t data_length,
                                 uint8_t *buffer, size_t buffer_length,
                                 const uint8_t *tag, size_t tag_length);

/* Sealing Deoxys-I (suites 1 and 2) by pieces.
 *
 * deoxys_begin gives a state, deoxys_take enciphers the next piece of the
 * message in place, deoxys_finish gives the tag. Each call takes the state by
 * value and hands it back; nothing is kept elsewhere. The next call takes what
 * the last one handed back:
 *
 *     struct deoxys_pieces state = deoxys_begin(...);
 *     struct deoxys_taken taken = deoxys_take(state, piece, piece_length);
 *     state = taken.pieces;
 *     ...
 *     struct deoxys_finished finished = deoxys_finish(state);
 *
 * Where every number is 0, the joined pieces, the tag and the rows are those
 * of one deoxys_seal of the joined message, with the same suite, key, nonce
 * and data.
 *
 * A piece has any length, 0 too. One that is taken and is no multiple of 16
 * bytes is the last. The numbers, in the order in which they are checked:
 *
 *   begin's  in the state: 1 where the suite isn't 1 or 2; 2 to 4 as above.
 *            Every later call with this state answers with it
 *   8        a piece after one was taken that is no multiple of 16 bytes; a
 *            piece or a finish after a finish; any call with a state whose
 *            rounds are not 14 or 16, whose total is over DEOXYS_LIMIT or
 *            whose rows are over 131,072, such as one that was wiped. Other
 *            changes of a state are not seen
 *   5        a piece that would bring the message over DEOXYS_LIMIT
 *
 * A refused call hands back the state as it stood and leaves the piece as it
 * was; a refused finish has 16 zero bytes as tag and 0 rows. After a 5 the
 * state still takes a shorter piece. Look at every number: a piece that was
 * refused is still in clear, and a finish after it may answer 0 for those
 * that were taken.
 *
 * A state holds key material, a finished one too: wipe it when it is done
 * with. Each call takes and gives it by value, so that copies stay on the
 * stack; the library wipes nothing. The state of a refused begin is zero but
 * for its number. Bytes between the fields of a state say nothing. An old
 * copy of a state goes on from where that state stood, so that two messages
 * could be sealed under one nonce, which Deoxys-I forbids: use each state
 * once. */

/* The expanded key. */
struct deoxys_subkeys {
    uint8_t bytes[272];
    size_t rounds;
};

/* The running state. Read its number; leave the rest to the library. */
struct deoxys_pieces {
    uint8_t number; /* begin's */
    uint8_t stage;  /* 0 takes pieces, 1 has had its last, 2 is finished */
    struct deoxys_subkeys keys;
    uint8_t nonce[8];
    uint8_t auth[16];
    uint8_t checksum[16];
    size_t total; /* bytes taken so far */
    size_t rows;  /* block cipher calls made so far */
};

struct deoxys_taken {
    struct deoxys_pieces pieces;
    uint8_t number;
};

/* The rows are all block cipher calls from the begin on. */
struct deoxys_finished {
    struct deoxys_pieces pieces;
    uint8_t number;
    uint8_t tag[16];
    size_t rows;
};

/* Begins a message, with its associated data. */
struct deoxys_pieces deoxys_begin(uint8_t suite,
                                  const uint8_t *key, size_t key_length,
                                  const uint8_t *nonce, size_t nonce_length,
                                  const uint8_t *data, size_t data_length);

/* Enciphers the next piece of the message in place. */
struct deoxys_taken deoxys_take(struct deoxys_pieces state,
                                uint8_t *piece, size_t piece_length);

/* Gives the tag of all that was taken. */
struct deoxys_finished deoxys_finish(struct deoxys_pieces state);

/* The house record, which keeps one sealed row.
 *
 * It has six fields, in this order and nothing else. A field is a one-byte
 * tag, a two-byte big-endian length and its bytes:
 *
 *   01   suite        1 byte, 1 to 4
 *   02   row          2 bytes, big-endian, 1 to 20
 *   03   nonce        8 bytes for the suites 1 and 2, 15 for 3 and 4
 *   04   note         0 to 1,024 bytes
 *   05   ciphertext   0 to 4,096 bytes
 *   06   tag          16 bytes
 *
 * so that the longest has 5,172 bytes. A bundle is 0 to 64 records with
 * nothing between or after them, at most 331,008 bytes; its rows may come in
 * any order, and more than once.
 *
 * The cipher's associated data of a sealed row is the two row bytes,
 * big-endian as in the record, and then the note: give it to deoxys_seal, and
 * to deoxys_open as it was read. Reading checks the layout and not the tag.
 * What was read is authentic only once deoxys_open has answered 0 for it.
 *
 * What was written is read back as it was given. What is read with 0 is, byte
 * for byte, what the writer writes for that content. */
#define CALIBRATION_NOTE_LIMIT ((size_t)1024)
#define CALIBRATION_CIPHER_LIMIT ((size_t)4096)
#define CALIBRATION_ROW_LIMIT 20
#define CALIBRATION_RECORD_LIMIT ((size_t)5172)   /* bytes of a record */
#define CALIBRATION_BUNDLE_RECORDS ((size_t)64)   /* records of a bundle */
#define CALIBRATION_BUNDLE_LIMIT ((size_t)331008) /* bytes of a bundle */

/* The number in an answer of the three functions below, 0 where it was done.
 *
 * The reader takes field after field, and for each checks, in this order:
 *
 *   10   fewer than three bytes are left
 *   11   the tag isn't this field's
 *   12   the length isn't one that this field may have
 *   10   fewer bytes are left than the length says
 *   13   the suite or the row is outside its range
 *
 * and of a bundle, where bytes are left after record 64:
 *
 *   15   there are too many
 *
 * The writer takes field after field too, with 12 and 13 as the reader has
 * them, and last:
 *
 *   24   the destination is shorter than the record
 *
 * The first that applies is given. What is left:
 *
 *             0                              any other number
 *   writing   the record at the start of     not one byte of the destination
 *             the destination, and its       changed, length 0
 *             length; the bytes after the
 *             record as they were
 *   reading   the record                     every field 0 but the number
 *   bundle    how many records there are     records 0
 */
enum {
    CALIBRATION_DONE = 0,
    CALIBRATION_BYTES_MISSING = 10,
    CALIBRATION_WRONG_FIELD = 11,
    CALIBRATION_BAD_LENGTH = 12,
    CALIBRATION_OUT_OF_RANGE = 13,
    CALIBRATION_TOO_MANY_RECORDS = 15,
    CALIBRATION_NO_ROOM = 24
};

struct calibration_written {
    uint8_t number;
    size_t length; /* of the record, in bytes */
};

/* Where each text lies in the bytes that were read: its place, counted from
 * the start of the bytes given and not of the record, and its length. The tag
 * has DEOXYS_TAG_LENGTH bytes. A next record begins where this one does and
 * length bytes on. */
struct calibration_record {
    uint8_t number;
    uint8_t suite;
    uint16_t row;
    size_t nonce, nonce_length;
    size_t note, note_length;
    size_t cipher, cipher_length;
    size_t tag;
    size_t length; /* of the record, in bytes */
};

struct calibration_bundle {
    uint8_t number;
    size_t records;
};

/* Writes a record at the start of the destination. */
struct calibration_written calibration_write_record(
    uint8_t suite, uint16_t row,
    const uint8_t *nonce, size_t nonce_length,
    const uint8_t *note, size_t note_length,
    const uint8_t *cipher, size_t cipher_length,
    const uint8_t *tag, size_t tag_length,
    uint8_t *destination, size_t destination_length);

/* Reads the record that begins at a place, whatever comes after it. A place
 * at the end of the bytes or past it is a 10. */
struct calibration_record calibration_read_record(const uint8_t *bytes,
                                                  size_t bytes_length,
                                                  size_t at);

/* Reads a bundle to its last byte and counts its records. No bytes at all are
 * a bundle of none. */
struct calibration_bundle calibration_read_bundle(const uint8_t *bytes,
                                                  size_t bytes_length);

#ifdef __cplusplus
}
#endif

#endif
