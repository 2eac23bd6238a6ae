/* Exports a trouble-code listing from a file: prints a line to each record, its code as the workshop writes it and its status. Where the
 * file has such a text instead, imports it, and prints the bytes of the listing, with the availability mask 0xFF.
 *
 *     tools/library
 *     cc -Iinclude examples/listing_text.c target/staticlib/libskrolvind.a -o listing_text
 *     ./listing_text FILE
 *
 * The exit status is 0 where the file is accepted, 1 where it is refused, and 2 where it cannot be read.
 */
#include "shared.h"
#include "skrolvind.h"

/* More than any listing has, or the text of one, so that one that is too long is seen to be. */
enum { ROOM = 2 * SKR_LONGEST_LISTING_TEXT, LISTING = 0x59 };

int main(int count, char **words) {
    static uint8_t bytes[ROOM], room[ROOM];
    size_t len = count == 2 ? read_file(words[1], bytes, ROOM) : SIZE_MAX;
    if (len == SIZE_MAX) {
        fprintf(stderr, "usage: listing_text FILE\n");
        return 2;
    }
    bool listing = len > 1 && bytes[0] == LISTING; /* no text begins with this byte */
    uint8_t sub = listing && bytes[1] == SKR_BY_SEVERITY_MASK ? SKR_BY_SEVERITY_MASK : SKR_BY_STATUS_MASK;
    skr_written w = listing ? skr_export_listing(sub, bytes, len, room, ROOM) : skr_import_listing(0xFF, bytes, len, room, ROOM);
    if (w.number != SKR_ACCEPTED) return print_refusal(w.number, w.first, w.second);
    if (listing)
        fwrite(room, 1, w.written, stdout);
    else
        print_bytes(room, w.written);
    return 0;
}
