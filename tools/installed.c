/* Uses the installed header and library, and holds what they answer: `tools/install --test` builds and runs it as C and as C++. */
#undef NDEBUG
#include <assert.h>
#include <stdio.h>
#include <string.h>

#include <skrolvind.h>

#define TEXT(number) #number
#define JOINED(major, minor, patch) TEXT(major) "." TEXT(minor) "." TEXT(patch)

/* The file `a` added: format 0x11, 255 bytes unpacked and 256 packed, in sizes of three bytes each; a byte is left over. */
static const uint8_t add_file[] = {0x38, 1, 0, 1, 'a', 0x11, 3, 0, 0, 0xFF, 0, 1, 0, 0x5A};

static void the_version_is_that_of_its_numbers(void) {
    assert(strcmp(SKR_VERSION, JOINED(SKR_VERSION_MAJOR, SKR_VERSION_MINOR, SKR_VERSION_PATCH)) == 0);
}

static void a_message_is_read(void) {
    skr_message m = skr_read_message(add_file, sizeof add_file);
    assert(m.number == SKR_ACCEPTED && m.service == SKR_SERVICE_FILE_REQUEST && m.kind == SKR_ADD_FILE);
    assert(m.start == 4 && m.len == 1 && m.uncompressed_low == 255 && m.compressed_low == 256 && m.tail == 13);
    skr_why why = skr_why_request(add_file + 1, 5);
    assert(why.number == SKR_TOO_SHORT && why.field == SKR_FIELD_SIZE_GROUP && why.offset == 5);
}

static void a_request_is_rewritten_and_its_end_is_told(void) {
    uint8_t room[SKR_LONGEST_REQUEST];
    skr_rewritten w = skr_rewrite_request(add_file + 1, sizeof add_file - 1, room, sizeof room);
    assert(w.number == SKR_ACCEPTED && w.written == 10 && w.tail == 12);
    assert(memcmp(room, "\1\0\1a\x11\2\0\xFF\1\0", 10) == 0);
}

static void a_request_is_written(void) {
    const uint8_t name[] = {'a'};
    uint8_t room[4];
    skr_written w = skr_write_request(SKR_DELETE_FILE, name, sizeof name, 0, 0, 0, 0, 0, room, sizeof room);
    assert(w.number == SKR_ACCEPTED && w.written == 4 && memcmp(room, "\2\0\1a", 4) == 0);
    w = skr_write_request(SKR_DELETE_FILE, name, sizeof name, 0, 0, 0, 0, 0, room, 3);
    assert(w.number == SKR_NO_ROOM && w.first == 4 && w.second == 3);
}

static void a_suppress_of_two_is_true(void) {
    uint8_t room[3];
    int suppress = 2;
    skr_written w = skr_write_routine_request(suppress, SKR_START_ROUTINE, 0x0203, NULL, 0, room, sizeof room);
    assert(w.number == SKR_ACCEPTED && w.written == 3 && room[0] == (0x80 | SKR_START_ROUTINE));
}

static void a_part_is_read_and_written(void) {
    skr_part name = skr_read_name(add_file + 2, sizeof add_file - 2);
    assert(name.number == SKR_ACCEPTED && name.start == 2 && name.len == 1 && name.tail == 3);
    uint8_t room[3];
    skr_written w = skr_write_name(add_file + 2 + name.start, name.len, room, sizeof room);
    assert(w.number == SKR_ACCEPTED && w.written == 3 && memcmp(room, add_file + 2, 3) == 0);
}

static void a_loop_over_codes_ends_where_none_is_found(void) {
    const uint8_t list[] = {3, 1, 0x11, 0xC1, 0, 0, 9};
    size_t at = 0, count = 0;
    skr_next_trouble_code code = skr_dtc_next(list, sizeof list);
    while (code.found) {
        count++;
        at += code.tail;
        code = skr_dtc_next(list + at, sizeof list - at);
    }
    assert(count == 2 && at == 6 && code.number == SKR_TOO_SHORT && code.first == 3 && code.second == 1);
    code = skr_dtc_next(NULL, 0);
    assert(code.number == SKR_ACCEPTED && !code.found);
}

static void every_refusal_has_words(void) {
    uint8_t words[SKR_LONGEST_REFUSAL_TEXT];
    uint64_t longest = 0;
    for (uint64_t number = SKR_ACCEPTED; number <= SKR_BAD_CHARACTER; number++) {
        skr_written w = skr_refusal_text(number, words, sizeof words);
        assert(w.number == SKR_ACCEPTED);
        if (w.written > longest) longest = w.written;
    }
    assert(longest == SKR_LONGEST_REFUSAL_TEXT);
    assert(skr_refusal_text(SKR_BAD_CHARACTER + 1, words, sizeof words).number == SKR_OUT_OF_RANGE);
    char text[SKR_LONGEST_REFUSAL_TEXT + 1];
    skr_written w = skr_refusal_text(SKR_BAD_WIDTH, words, sizeof words);
    snprintf(text, sizeof text, "%.*s", (int)w.written, (const char *)words);
    assert(strcmp(text, "bad width: a size is 1 to 16 bytes wide") == 0);
}

/* Asked with an empty room, a writer tells how many bytes it needs. */
static void the_longest_is_what_a_writer_needs(void) {
    static const uint8_t zeros[SKR_LONGEST_NAME] = {0};
    const uint64_t most = UINT64_MAX;
    assert(skr_write_request(SKR_ADD_FILE, zeros, SKR_LONGEST_NAME, 0, most, most, most, most, NULL, 0).first == SKR_LONGEST_REQUEST);
    assert(skr_write_request_message(SKR_ADD_FILE, zeros, SKR_LONGEST_NAME, 0, most, most, most, most, NULL, 0).first ==
           SKR_LONGEST_MESSAGE);
    assert(skr_write_response(SKR_READ_FILE, zeros, SKR_LONGEST_BLOCK_LENGTH, 0, most, most, most, most, most, NULL, 0).first ==
           SKR_LONGEST_RESPONSE);
    assert(skr_write_routine_request(false, SKR_STOP_ROUTINE, 0, zeros, SKR_LONGEST_RECORD, NULL, 0).first == SKR_LONGEST_ROUTINE);
}

static void the_longest_listing_has_the_longest_text(void) {
    static skr_code_record records[SKR_MOST_LISTED];
    static uint8_t listing[SKR_LONGEST_LISTING];
    for (size_t i = 0; i < SKR_MOST_LISTED; i++) records[i].known = 1;
    skr_written w = skr_write_listing(SKR_BY_SEVERITY_MASK, 0xFF, (const uint8_t *)records, sizeof records, listing, sizeof listing);
    assert(w.number == SKR_ACCEPTED && w.written == SKR_LONGEST_LISTING);
    w = skr_export_listing(SKR_BY_SEVERITY_MASK, listing, sizeof listing, NULL, 0);
    assert(w.number == SKR_NO_ROOM && w.first == SKR_LONGEST_LISTING_TEXT);
}

int main(void) {
    the_version_is_that_of_its_numbers();
    a_message_is_read();
    a_request_is_rewritten_and_its_end_is_told();
    a_request_is_written();
    a_suppress_of_two_is_true();
    a_part_is_read_and_written();
    a_loop_over_codes_ends_where_none_is_found();
    every_refusal_has_words();
    the_longest_is_what_a_writer_needs();
    the_longest_listing_has_the_longest_text();
    return 0;
}
