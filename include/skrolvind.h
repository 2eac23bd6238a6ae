/* Skrolvind for C: the functions of crates `station`, `archive`, `workshop`, `parts` and `refusal_words`, each proved to do what its
 * contract says on every input. For C11 and for C++11, and for what came after them.
 *
 *     skr_file_transfer r = skr_read_request(message, message_len);
 *     if (r.number == SKR_ACCEPTED && r.kind == SKR_ADD_FILE)
 *         printf("add %.*s\n", (int)r.len, (const char *)message + r.start);
 *
 * A slice is a pointer and then a length; an empty slice may have any pointer. No function keeps a pointer, and no
 * function but a writer, or one that fills a list, changes a byte of what it is lent. A slice that is written into must not
 * overlap another one that is lent to the same call.
 *
 * Every record that is answered begins with three numbers: 0, 0, 0 where the call was accepted, else the number of the refusal
 * (enum skr_refusal) and the two values that it carries (docs/REFUSALS.md). After a refusal every other field is 0, but for the state
 * of a recorded transfer, for the field and the offset where it is asked why a message is refused, for the count of a joined buffer
 * that is taken apart, and for which of two listings is refused. A kind or a sub-function that does not exist is refused before
 * anything else is looked at. Refusals are told here in the order in which they are looked for: the first one that is found is
 * answered. A refused call has written nothing.
 *
 * A `bool` is C's own: any number that is handed over as one arrives as 0 or 1, so that a `suppress` of 2 is true. A byte that is
 * neither, and is read as a `bool` through a pointer that was cast, is no `bool`: C itself does not allow it, and no door can mend it.
 *
 * In this order: what is handed out, file transfer, routines, the desk, why, names and codes, parts, sheets and logs, batches,
 * messages, listings, texts.
 */
#ifndef SKROLVIND_H
#define SKROLVIND_H

#include <assert.h>
#include <stdbool.h>
#include <stddef.h>
#include <stdint.h>

#ifdef __cplusplus
extern "C" {
#endif

#define SKR_VERSION_MAJOR 0
#define SKR_VERSION_MINOR 1
#define SKR_VERSION_PATCH 0
#define SKR_VERSION "0.1.0"

/* How many bytes the longest of each has, so that a room of that length is never too small. A request, a response and a routine
 * message are counted without a service byte, a message with it. */
#define SKR_LONGEST_REQUEST 65572
#define SKR_LONGEST_RESPONSE 292
#define SKR_LONGEST_ROUTINE 65538
#define SKR_LONGEST_MESSAGE 65573
#define SKR_LONGEST_NAME 65535
#define SKR_LONGEST_BLOCK_LENGTH 255
#define SKR_LONGEST_RECORD 65535 /* of a routine that is written */
#define SKR_LONGEST_LISTING 24579
#define SKR_LONGEST_LISTING_TEXT 49152
#define SKR_LONGEST_REFUSAL_TEXT 88

/* How many one call takes: messages in a batch or joined, records in a listing, records in a sheet or a log. */
#define SKR_MOST_MESSAGES 4096
#define SKR_MOST_LISTED 4096
#define SKR_MOST_RECORDS 65536

/* ---- What is handed out ---- */

/* The numbers of the refusals, and the values `first` and `second` that each carries: what is not told is 0. skr_refusal_text has
 * their words.
 *
 * Refusal 2 for a name that is not UTF-8 says where the name goes bad: `first` is the length, in bytes of the name, of its
 * longest beginning that is UTF-8 (what skr_valid_up_to answers). For whatever is too long it is 0. */
enum skr_refusal {
    SKR_ACCEPTED = 0,
    SKR_TOO_SHORT = 1,            /* needed, available: both from where the field begins */
    SKR_WRONG_FORMAT = 2,         /* how many bytes of the name are good; 0 for what is too long */
    SKR_UNKNOWN_MODE = 3,         /* the byte */
    SKR_UNKNOWN_SUB_FUNCTION = 4, /* the byte; of a request that is read its low seven bits */
    SKR_NO_TROUBLE_CODE = 5,      /* the number */
    SKR_BAD_WIDTH = 6,            /* the width */
    SKR_NO_ROOM = 7,              /* needed, room: in bytes, or in entries of a list */
    SKR_UNEQUAL_SIZES = 8,
    SKR_LEFT_OVER = 9,            /* how many bytes */
    SKR_CUT = 10,
    SKR_OUT_OF_RANGE = 11,        /* the place of the record, or 0 */
    SKR_TOO_MANY = 12,
    SKR_NOT_ALLOWED = 13,         /* the place of the record */
    SKR_WRONG_COUNTER = 14,       /* the place of the record */
    SKR_UNKNOWN_SERVICE = 15,     /* the place of the record, or 0 */
    SKR_NO_SUCH_CODE = 16,
    SKR_REPEATED = 17,            /* the place of the record */
    SKR_BAD_CHARACTER = 18        /* the place of the character */
};

/* What a writer did: how many bytes it wrote. */
typedef struct {
    uint64_t number, first, second;
    uint64_t written;
} skr_written;

/* The meaning of a refusal in plain words at the start of the room: ASCII, and no zero byte behind them. A room of
 * SKR_LONGEST_REFUSAL_TEXT bytes is enough for each. To print a refusal:
 *
 *     uint8_t words[SKR_LONGEST_REFUSAL_TEXT];
 *     skr_written w = skr_refusal_text(number, words, sizeof words);
 *     printf("%.*s\n", (int)w.written, (const char *)words);
 *
 * Refusals: 11 (SKR_OUT_OF_RANGE) with 0 where no refusal has the number, and 0 has words too (`accepted`); 7 (SKR_NO_ROOM). */
skr_written skr_refusal_text(uint64_t number, uint8_t *room, size_t room_len);

/* ---- File transfer ---- */

/* The kinds of a file transfer message. Each is a mode byte; beside it is what stands behind that byte in a request; in a response. */
enum skr_kind {
    SKR_ADD_FILE = 1,     /* name, format, two sizes; block length, format */
    SKR_DELETE_FILE = 2,  /* name; nothing */
    SKR_REPLACE_FILE = 3, /* name, format, two sizes; block length, format */
    SKR_READ_FILE = 4,    /* name, format; block length, format, two sizes */
    SKR_READ_DIR = 5,     /* name; block length, format, one size */
    SKR_RESUME_FILE = 6   /* name, format, two sizes; block length, format, position */
};

/* A file transfer message that was read. `kind` is one of enum skr_kind: 1 is AddFile. `start` and `len` are the place of the name
 * (in a request) or of the block length (in a response) in the message; sizes are held as two halves; what the kind lacks is 0;
 * `tail` is where the message ends: what follows it is left over, and is no refusal. */
typedef struct {
    uint64_t number, first, second;
    uint64_t kind, start, len, format;
    uint64_t uncompressed_high, uncompressed_low, compressed_high, compressed_low;
    uint64_t position, tail;
} skr_file_transfer;

/* What a rewriting did: how many bytes it wrote, and where the message that it read ends; what follows `tail` is left over. After a
 * refusal both are 0. */
typedef struct {
    uint64_t number, first, second;
    uint64_t written, tail;
} skr_rewritten;

/* Reads a file transfer request from the start of the message. Refusals: 1 (SKR_TOO_SHORT) for an empty message, and so at each
 * field that the message ends in; 2 (SKR_WRONG_FORMAT) for the name; 3 (SKR_UNKNOWN_MODE), for the mode is judged after the name;
 * 6 (SKR_BAD_WIDTH) for the sizes, once all their bytes are there. */
skr_file_transfer skr_read_request(const uint8_t *message, size_t message_len);

/* Reads a file transfer response from the start of the message. Refusals: 1 for an empty message, then 3, for here the mode is judged
 * at once; then 1 at each field that the message ends in, and 6 for the sizes. */
skr_file_transfer skr_read_response(const uint8_t *message, size_t message_len);

/* Writes a file transfer request at the start of the room, its sizes at the smallest width. What the kind lacks is ignored.
 * Refusals: 3 for a kind that does not exist; 2 for a name of more than SKR_LONGEST_NAME bytes, then for one that is not UTF-8;
 * 7 (SKR_NO_ROOM). */
skr_written skr_write_request(uint8_t kind, const uint8_t *name, size_t name_len, uint8_t format,
                              uint64_t uncompressed_high, uint64_t uncompressed_low,
                              uint64_t compressed_high, uint64_t compressed_low,
                              uint8_t *room, size_t room_len);

/* Writes a file transfer response, likewise; of a ReadDir response the one size is the uncompressed. Refusals: 3; 2 for a block
 * length of more than SKR_LONGEST_BLOCK_LENGTH bytes, where the kind has one; 7. */
skr_written skr_write_response(uint8_t kind, const uint8_t *block, size_t block_len, uint8_t format,
                               uint64_t uncompressed_high, uint64_t uncompressed_low,
                               uint64_t compressed_high, uint64_t compressed_low,
                               uint64_t position, uint8_t *room, size_t room_len);

/* Reads a file transfer request and writes it anew, without what is left over after it: that begins at `tail` of the message. The
 * room must not overlap the message, not even where the message that is written would be no longer than the one that is read: to
 * replace a message by what it is rewritten to, rewrite it elsewhere and copy it back. Refusals: those of skr_read_request, then 7. */
skr_rewritten skr_rewrite_request(const uint8_t *message, size_t message_len, uint8_t *room, size_t room_len);

/* Reads a file transfer response and writes it anew, likewise: no overlap, and `tail` is where the response ends. Refusals: those of
 * skr_read_response, then 7. */
skr_rewritten skr_rewrite_response(const uint8_t *message, size_t message_len, uint8_t *room, size_t room_len);

/* ---- Routines ---- */

/* What can be asked of a routine. */
enum skr_sub_function {
    SKR_START_ROUTINE = 1,
    SKR_STOP_ROUTINE = 2,
    SKR_ROUTINE_RESULTS = 3
};

/* A routine message that was read. `sub_function` is one of enum skr_sub_function: 1 is start. `suppress` is 1 where a request asks
 * for no positive response (bit 0x80 of its first byte), else 0. `start` and `len` are the place of its record. */
typedef struct {
    uint64_t number, first, second;
    uint64_t suppress, sub_function, identifier, start, len;
} skr_routine;

/* Reads a routine request; its record is all that follows the first three bytes. Refusals: 1 for fewer than three bytes, then 4
 * (SKR_UNKNOWN_SUB_FUNCTION). */
skr_routine skr_read_routine_request(const uint8_t *message, size_t message_len);

/* Reads a routine response. Refusals: 1 and 4, likewise; bit 0x80 belongs into requests alone, and is refused here. */
skr_routine skr_read_routine_response(const uint8_t *message, size_t message_len);

/* Writes a routine request. Refusals: 4 for a sub-function that does not exist; 2 for a record of more than SKR_LONGEST_RECORD
 * bytes; 7. */
skr_written skr_write_routine_request(bool suppress, uint8_t sub_function, uint16_t identifier,
                                      const uint8_t *record, size_t record_len, uint8_t *room, size_t room_len);

/* Writes a routine response. Refusals: 4, 2 and 7, likewise. */
skr_written skr_write_routine_response(uint8_t sub_function, uint16_t identifier,
                                       const uint8_t *record, size_t record_len, uint8_t *room, size_t room_len);

/* ---- The desk ---- */

/* The desk's answer. */
typedef struct {
    uint64_t number, first, second;
} skr_desk;

/* Judges one request at the desk: the reader's refusals, then 9 (SKR_LEFT_OVER) for bytes left over, then 8 (SKR_UNEQUAL_SIZES) for
 * unequal sizes under format 0x00. */
skr_desk skr_desk_check(const uint8_t *message, size_t message_len);

/* ---- Why ---- */

/* The fields of a file transfer message. */
enum skr_field {
    SKR_FIELD_NONE = 0,
    SKR_FIELD_MODE = 1,
    SKR_FIELD_NAME = 2,
    SKR_FIELD_FORMAT_BYTE = 3,
    SKR_FIELD_SIZE_GROUP = 4,
    SKR_FIELD_BLOCK_LENGTH = 5,
    SKR_FIELD_POSITION = 6
};

/* Why a file transfer message is refused. `field` is the field that stopped it (enum skr_field): 1 mode, 2 name, 3 format byte,
 * 4 size group, 5 block length, 6 position, and 0 where the message is accepted. `offset` is where that field begins in the message:
 * a name at the two bytes of its length, sizes at their width, a block length at its count. */
typedef struct {
    uint64_t number, first, second;
    uint64_t field, offset;
} skr_why;

/* Why a file transfer request is refused: the first check that fails. Every check that comes before it passes. Bytes left over
 * are no reason: the refusals are those of skr_read_request. */
skr_why skr_why_request(const uint8_t *message, size_t message_len);

/* Why a file transfer response is refused, likewise, with the refusals of skr_read_response. */
skr_why skr_why_response(const uint8_t *message, size_t message_len);

/* ---- Names and codes ---- */

/* The length of the longest beginning of the name that is UTF-8: of a name that is, name_len. It refuses nothing. */
uint64_t skr_valid_up_to(const uint8_t *name, size_t name_len);

/* A trouble code. */
typedef struct {
    uint64_t number, first, second;
    uint64_t high, middle, low;
} skr_trouble_code;

/* The trouble code of a number. Refusal 5 (SKR_NO_TROUBLE_CODE) for a number above 0x00FFFFFF. */
skr_trouble_code skr_dtc_from_number(uint32_t number);

/* The next trouble code of a list: `found` is 1, or 0 where the buffer is empty. `tail` is where the one after it begins. */
typedef struct {
    uint64_t number, first, second;
    uint64_t found, high, middle, low, tail;
} skr_next_trouble_code;

/* The first trouble code of a buffer, and where the next one begins. Refusal 1 for one or two bytes. An empty buffer is accepted and
 * has none: its `found` is 0, and so is that of a refusal. A loop over a list therefore tests `found`, and asks behind it whether the
 * list was refused at its end:
 *
 *     size_t at = 0;
 *     skr_next_trouble_code code = skr_dtc_next(list, list_len);
 *     while (code.found) {
 *         printf("%02x%02x%02x\n", (unsigned)code.high, (unsigned)code.middle, (unsigned)code.low);
 *         at += code.tail;
 *         code = skr_dtc_next(list + at, list_len - at);
 *     }
 *     if (code.number != SKR_ACCEPTED) printf("the list is cut at %zu\n", at);
 */
skr_next_trouble_code skr_dtc_next(const uint8_t *buffer, size_t buffer_len);

/* ---- Parts ---- */

/* Parts of file transfer messages alone, for whoever puts a message together or takes it apart piece by piece. Each is read from the
 * start of a buffer that begins with the part; what follows the part may be anything. */

/* A name or a block length that was read: `start` and `len` are its place in the buffer, and `tail` is where the part ends. */
typedef struct {
    uint64_t number, first, second;
    uint64_t start, len, tail;
} skr_part;

/* Sizes that were read, as two halves each, and where the part ends. */
typedef struct {
    uint64_t number, first, second;
    uint64_t uncompressed_high, uncompressed_low, compressed_high, compressed_low;
    uint64_t tail;
} skr_sizes;

/* A position that was read, and where the part ends. */
typedef struct {
    uint64_t number, first, second;
    uint64_t position, tail;
} skr_position;

/* Reads a name as it stands in a request: its length in two bytes, high first, and then the name. Refusals: 1, then 2. */
skr_part skr_read_name(const uint8_t *buffer, size_t buffer_len);

/* Reads a block length as it stands in a response: a count in one byte, and then so many bytes. Refusal 1. */
skr_part skr_read_block_length(const uint8_t *buffer, size_t buffer_len);

/* Reads the two sizes of a request: their width in one byte, the uncompressed size and then the compressed one. Refusals: 1, then 6. */
skr_sizes skr_read_sizes(const uint8_t *buffer, size_t buffer_len);

/* Reads the two sizes of a ReadFile response, likewise, but for their width, which has two bytes. */
skr_sizes skr_read_file_sizes(const uint8_t *buffer, size_t buffer_len);

/* Reads the one size of a ReadDir response, likewise: it stands as the uncompressed, and the compressed is 0. */
skr_sizes skr_read_dir_size(const uint8_t *buffer, size_t buffer_len);

/* Reads the position of a ResumeFile response: eight bytes. Refusal 1. */
skr_position skr_read_position(const uint8_t *buffer, size_t buffer_len);

/* Writes a name behind its length. Refusals: 2 for one of more than SKR_LONGEST_NAME bytes, then for one that is not UTF-8; 7. */
skr_written skr_write_name(const uint8_t *name, size_t name_len, uint8_t *room, size_t room_len);

/* Writes a block length behind its count. Refusals: 2 for one of more than SKR_LONGEST_BLOCK_LENGTH bytes; 7. */
skr_written skr_write_block_length(const uint8_t *block, size_t block_len, uint8_t *room, size_t room_len);

/* Write the sizes of a request, those of a ReadFile response and the one of a ReadDir response at the smallest width. Refusal 7. */
skr_written skr_write_sizes(uint64_t uncompressed_high, uint64_t uncompressed_low,
                            uint64_t compressed_high, uint64_t compressed_low, uint8_t *room, size_t room_len);
skr_written skr_write_file_sizes(uint64_t uncompressed_high, uint64_t uncompressed_low,
                                 uint64_t compressed_high, uint64_t compressed_low, uint8_t *room, size_t room_len);
skr_written skr_write_dir_size(uint64_t high, uint64_t low, uint8_t *room, size_t room_len);

/* Writes a position in eight bytes. Refusal 7. */
skr_written skr_write_position(uint64_t position, uint8_t *room, size_t room_len);

/* ---- Sheets and logs ---- */

/* A sheet of records counted: twelve months of ten counts each, one after the other. cells[10 * (month - 1) + number] is how
 * many records have that month and that refusal number. After a refusal all are 0. */
typedef struct {
    uint64_t number, first, second;
    uint32_t cells[120];
} skr_tally;

/* Counts the records of a sheet by month and refusal number. A record has 8 bytes: month (1 to 12), station, direction (0
 * request, 1 response), refusal number (0 to 9), and the coach number in four. Refusals: 12 (SKR_TOO_MANY) for more than 65,536 whole
 * records, then 10 (SKR_CUT) where records_len is no multiple of 8, then 11 (SKR_OUT_OF_RANGE) with the place (from 0) of the first
 * record with a field out of range. */
skr_tally skr_tally_records(const uint8_t *records, size_t records_len);

/* The state of a recorded transfer: `open` is 1 or 0; `has_last` is 1 where this transfer has an accepted block, whose
 * counter is then `last`, else both are 0; repeats and total (bytes) are over the whole log. Beside a refusal it is the state
 * before the record that was refused. */
typedef struct {
    uint64_t number, first, second;
    uint64_t open, has_last, last, repeats, total;
} skr_replay;

/* Runs a log of records of 4 bytes (service, kind or block counter, payload length high first) through the rules, from a state
 * that is closed and all 0. 12 for more than 65,536 records, then 10 for a cut last one, both with that first state; then the
 * first bad record ends the run, with its place, counted from 0: 15 (SKR_UNKNOWN_SERVICE) unknown service, then 13 (SKR_NOT_ALLOWED) a
 * step that the state or the kind does not allow, then 14 (SKR_WRONG_COUNTER) wrong counter. */
skr_replay skr_replay_log(const uint8_t *log, size_t log_len);

/* Runs one record after a state, for whoever follows a transfer while it runs. The state begins as all 0; what the answer says
 * of it is handed over the next time. A closed transfer has no last counter: `has_last` and `last` are looked at only where they
 * count. A refusal (15, 13, 14) carries `place`, and the state is as it was; 12 where repeats or total would pass 64 bits. */
skr_replay skr_replay_step(bool open, bool has_last, uint8_t last, uint64_t repeats, uint64_t total,
                           uint8_t service, uint8_t kind_or_counter, uint16_t payload, size_t place);

/* ---- Batches ---- */

/* What is answered to a batch of messages: the three numbers and nothing more. */
typedef skr_desk skr_batch;

/* Reads a morning's requests in one call: the buffer has the messages one after the other, `lengths` how long each one is, and a
 * length of 0 is an empty message. Entry k of the list becomes the refusal number of message k, 0 where it is accepted: what
 * skr_read_request answers to it alone, so that bytes left over within a message are no refusal. Entries from lengths_len on stay
 * as they were. Refusals, each of which leaves the list untouched: 12 for more than 4,096 messages (SKR_MOST_MESSAGES), then 10 where
 * the lengths do not add up to buffer_len exactly, then 7 where the list has fewer entries than there are messages (needed,
 * list_len). */
skr_batch skr_read_batch(const uint8_t *buffer, size_t buffer_len, const uint32_t *lengths, size_t lengths_len,
                         uint8_t *list, size_t list_len);

/* What a joined buffer is taken apart to: `count` is how many requests there are; beside a refusal, how many were found before it. */
typedef struct {
    uint64_t number, first, second;
    uint64_t count;
} skr_split;

/* Takes apart requests that were joined without lengths: the list becomes the length of each, as it stands in the buffer, from its
 * start, and is then what skr_read_batch takes as `lengths`, with `count` entries. Entries from the count on stay as they were. An
 * empty buffer has no request. Refusals, each of which leaves the list untouched: that of skr_read_request for the first piece that
 * it refuses, and `count` is then that piece's place, counted from 0; 12 where bytes follow 4,096 requests, whatever they are; and
 * last 7 where the list has fewer entries than there are requests (needed, lengths_len). */
skr_split skr_split_joined(const uint8_t *buffer, size_t buffer_len, uint32_t *lengths, size_t lengths_len);

/* ---- Messages ---- */

/* The service bytes of the messages off the adapter. */
enum skr_service {
    SKR_SERVICE_ROUTINE_REQUEST = 0x31,
    SKR_SERVICE_FILE_REQUEST = 0x38,
    SKR_SERVICE_ROUTINE_RESPONSE = 0x71,
    SKR_SERVICE_FILE_RESPONSE = 0x78,
    SKR_SERVICE_NEGATIVE = 0x7F
};

/* A whole message off the adapter that was read. `service` is its service byte (enum skr_service): 0x38 file transfer request, 0x31
 * routine request, 0x78 file transfer response, 0x71 routine response, 0x7F negative answer. `kind` is one of enum skr_kind and
 * `sub_function` one of enum skr_sub_function. `start` and `len` are the place of the name, of the block length or of the routine's
 * record, and `tail` is where a file transfer message ends: all are counted from the service byte, which stands at 0. Of a negative
 * answer `negative_service` is the service that is answered (0x38 or 0x31), `code` the code, and `listed` 1 where the code stands in
 * that service's list, else 0. What the sort lacks is 0, and so is what the kind lacks. */
typedef struct {
    uint64_t number, first, second;
    uint64_t service;
    uint64_t kind, start, len, format;
    uint64_t uncompressed_high, uncompressed_low, compressed_high, compressed_low;
    uint64_t position, tail;
    uint64_t suppress, sub_function, identifier;
    uint64_t negative_service, code, listed;
} skr_message;

/* Reads a whole message off the adapter, from its service byte on. 1 for an empty message, 15 for a service byte that is none of
 * the five; then for 0x7F 1 when it is short (needed 3, the service byte counted), 9 when it is longer, 11 when its second byte is
 * neither 0x38 nor 0x31; for the others what skr_read_request, skr_read_routine_request, skr_read_response and
 * skr_read_routine_response refuse of the bytes behind the service byte. */
skr_message skr_read_message(const uint8_t *message, size_t message_len);

/* Write a message behind its service byte, with the refusals of the writer that has the same name without `_message`; but 7 counts
 * the service byte, in what is needed and in the room. */
skr_written skr_write_request_message(uint8_t kind, const uint8_t *name, size_t name_len, uint8_t format,
                                      uint64_t uncompressed_high, uint64_t uncompressed_low,
                                      uint64_t compressed_high, uint64_t compressed_low,
                                      uint8_t *room, size_t room_len);
skr_written skr_write_response_message(uint8_t kind, const uint8_t *block, size_t block_len, uint8_t format,
                                       uint64_t uncompressed_high, uint64_t uncompressed_low,
                                       uint64_t compressed_high, uint64_t compressed_low,
                                       uint64_t position, uint8_t *room, size_t room_len);
skr_written skr_write_routine_request_message(bool suppress, uint8_t sub_function, uint16_t identifier,
                                              const uint8_t *record, size_t record_len, uint8_t *room, size_t room_len);
skr_written skr_write_routine_response_message(uint8_t sub_function, uint16_t identifier,
                                               const uint8_t *record, size_t record_len, uint8_t *room, size_t room_len);

/* Writes a negative answer: 0x7F, the service, the code, which need not be listed. 11 for a service that is neither 0x38
 * (SKR_SERVICE_FILE_REQUEST) nor 0x31 (SKR_SERVICE_ROUTINE_REQUEST), then 7. */
skr_written skr_write_negative(uint8_t service, uint8_t code, uint8_t *room, size_t room_len);

/* ---- Listings ---- */

/* Which trouble-code listing: that of all codes with some status, without severities, or that of codes by severity, with them. */
enum skr_listing_sub {
    SKR_BY_STATUS_MASK = 0x02,
    SKR_BY_SEVERITY_MASK = 0x08
};

/* The head of a trouble-code listing: its availability mask, and how many records it has. */
typedef struct {
    uint64_t number, first, second;
    uint64_t mask, count;
} skr_listing;

/* A record of a listing: `found` is 1, or 0 past the last record, and then the others are 0. `known` is 1 where severity and
 * functional unit are known, as they are in a listing of 0x08; else it is 0, and so are both. */
typedef struct {
    uint64_t number, first, second;
    uint64_t found, known, severity, unit, high, middle, low, status;
} skr_listed;

/* What a severity says: its classes in bits 0 to 4, of which a valid one has at least one, and what to do in bits 5 to 7. */
enum {
    SKR_CLASS_0 = 0x01,
    SKR_CLASS_1 = 0x02,
    SKR_CLASS_2 = 0x04,
    SKR_CLASS_3 = 0x08,
    SKR_CLASS_4 = 0x10,
    SKR_ANY_CLASS = 0x1F,
    SKR_MAINTENANCE_ONLY = 0x20,
    SKR_CHECK_AT_NEXT_HALT = 0x40,
    SKR_CHECK_IMMEDIATELY = 0x80
};

/* Reads a trouble-code listing, the answer to ReadDTCInformation: bytes 59 and `sub`, the availability mask, then records. A record
 * of 0x02 is three code bytes and a status byte, one of 0x08 severity, functional unit, three code bytes and a status byte. The
 * listing stays where it is, and severity is not judged. `sub` is one of enum skr_listing_sub. Refusals: 15 for a `sub` that does not
 * exist; 1 for fewer than 3 bytes; 15 for wrong first bytes; 12 for more than 4,096 whole records (SKR_MOST_LISTED); 10 for a cut one.
 * None is good. */
skr_listing skr_read_listing(uint8_t sub, const uint8_t *listing, size_t listing_len);

/* The record at a place, counted from 0. Any place may be asked for. Refusals as for reading. */
skr_listed skr_listing_record(uint8_t sub, const uint8_t *listing, size_t listing_len, size_t place);

/* The index of a listing, by the high byte of a code: counts[high] is how many records have it, firsts[high] the place (from 0)
 * of the first of them, 0 where there is none. After a refusal all are 0. */
typedef struct {
    uint64_t number, first, second;
    uint32_t counts[256], firsts[256];
} skr_index;

/* The index of a listing. Refusals as for reading. */
skr_index skr_listing_index(uint8_t sub, const uint8_t *listing, size_t listing_len);

/* The first record of a listing that has a code, and its place. */
typedef struct {
    uint64_t number, first, second;
    uint64_t place, known, severity, unit, high, middle, low, status;
} skr_found;

/* The first record that has the code. Refusals as for reading, then 11 where counts and firsts, 256 each, are not those of this
 * very listing, then 16 (SKR_NO_SUCH_CODE) exactly if no record has the code. */
skr_found skr_listing_lookup(uint8_t sub, const uint8_t *listing, size_t listing_len,
                             const uint32_t *counts, size_t counts_len, const uint32_t *firsts, size_t firsts_len,
                             uint8_t high, uint8_t middle, uint8_t low);

/* A record as it is handed over to be written, seven bytes. A `known` of 0 says that severity and functional unit are unknown,
 * whatever the two are; any other, that they are known. */
typedef struct {
    uint8_t known, severity, unit, high, middle, low, status;
} skr_code_record;

static_assert(sizeof(skr_code_record) == 7, "a record is handed over as seven bytes");

/* Writes a listing at the start of the room, from records of seven bytes each: those of skr_code_record, in their order. An array
 * `skr_code_record list[N]` is handed over as `(const uint8_t *)list, sizeof list`, and n of its records with `n * sizeof *list`.
 * Refusals: 15 for a `sub` that does not exist; 12 for more than 4,096 whole records; 10 where records_len is no multiple of seven;
 * 11 with the place of the first record whose `known` does not fit, for 0x02 has no severity and 0x08 must have one; 7. */
skr_written skr_write_listing(uint8_t sub, uint8_t mask, const uint8_t *records, size_t records_len,
                              uint8_t *room, size_t room_len);

/* What changed between two listings: `written` is how many bytes the entries have, six each. `which` is 1 where the first
 * listing is refused, 2 where the second is, and 0 where neither is. */
typedef struct {
    uint64_t number, first, second;
    uint64_t which, written;
} skr_changes;

/* What became of a code: it is gone, its record differs, or it is new. */
enum { SKR_GONE = 1, SKR_DIFFERS = 2, SKR_NEW = 3 };

/* An entry as it is written, six bytes. The status that is missing, the new one of what is gone and the old one of what is new,
 * is 0. */
typedef struct {
    uint8_t change, high, middle, low, old_status, new_status;
} skr_change;

static_assert(sizeof(skr_change) == 6, "an entry is written as six bytes");

/* What changed between two listings, each of 0x02 or of 0x08. Writes an entry for each code that is gone or whose record
 * differs, in the first listing's order, and then for each that is new, in the second's; an array `skr_change list[N]` is lent
 * as `(uint8_t *)list, sizeof list`. A record differs by its status, its severity or its functional unit, and an unknown
 * severity differs from a known one, so that both statuses of an entry may be equal; availability masks are not compared.
 * Refusals: those of skr_read_listing for the first listing, then 17 (SKR_REPEATED) with the place of its first record whose code
 * stood before it; the same for the second; 7, in bytes. */
skr_changes skr_listing_changes(uint8_t first_sub, const uint8_t *first, size_t first_len,
                                uint8_t second_sub, const uint8_t *second, size_t second_len,
                                uint8_t *room, size_t room_len);

/* ---- Texts ---- */

/* Writes a code as the workshop does, eight characters at the start of the room: P, C, B or U from the top two bits, a digit 0 to 3
 * from the next two, a hex digit from the low four, two from the middle byte, a dash, two from the low byte; capitals, and no zero
 * byte behind them. 03 01 11 is P0301-11. Refusal 7. */
skr_written skr_code_text(uint8_t high, uint8_t middle, uint8_t low, uint8_t *room, size_t room_len);

/* Reads a code that has exactly this form. Refusal 18 (SKR_BAD_CHARACTER) with the place, from 0, of the first character that cannot
 * stand there; the end of the text counts as its length, and a ninth character cannot stand anywhere. */
skr_trouble_code skr_read_code_text(const uint8_t *text, size_t text_len);

/* Exports a listing as text at the start of the room: for each record a line of twelve bytes, the code, a space, the status as
 * two hex digits and a line feed. Severity and functional unit are not carried. Refusals as for reading, then 7. */
skr_written skr_export_listing(uint8_t sub, const uint8_t *listing, size_t listing_len, uint8_t *room, size_t room_len);

/* Imports such a text as a listing of 0x02 with this availability mask, its lines in their order; none is good. Refusals: 18
 * with the place, in the whole text, of the first character that cannot stand there, line feeds counted, and the end of the text
 * where it ends within a line; 12 for more than 4,096 lines; 7. */
skr_written skr_import_listing(uint8_t mask, const uint8_t *text, size_t text_len, uint8_t *room, size_t room_len);

#ifdef __cplusplus
}
#endif

#endif
