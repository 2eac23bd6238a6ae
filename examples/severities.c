/* Reads a trouble-code listing of sub-function 0x08 from a file and asks the severity of each record: a line about each. The records that
 * are to be checked immediately are written as a listing of their own, and a last line says how long it is.
 *
 *     tools/library
 *     cc -Iinclude examples/severities.c target/staticlib/libskrolvind.a -o severities
 *     ./severities FILE
 *
 * The exit status is 0 where the listing is accepted, 1 where it is refused, and 2 where the file cannot be read.
 */
#include "shared.h"
#include "skrolvind.h"

/* More bytes than any listing has, so that one that is too long is seen to be. */
enum { ROOM = 2 * SKR_LONGEST_LISTING };

static void print_record(uint64_t place, const skr_listed *r) {
    printf("record %" PRIu64 ": code %02" PRIx64 " %02" PRIx64 " %02" PRIx64, place, r->high, r->middle, r->low);
    printf(", status %02" PRIx64 ", unit %02" PRIx64 ", severity %02" PRIx64, r->status, r->unit, r->severity);
    printf(r->severity & SKR_ANY_CLASS ? ": valid" : ": names no class");
    if (r->severity & SKR_MAINTENANCE_ONLY) printf(", maintenance only");
    if (r->severity & SKR_CHECK_AT_NEXT_HALT) printf(", check at next halt");
    if (r->severity & SKR_CHECK_IMMEDIATELY) printf(", check immediately");
    printf("\n");
}

/* A record as it is handed over: each of its numbers fits a byte. */
static skr_code_record handed(const skr_listed *r) {
    skr_code_record record = {(uint8_t)r->known,  (uint8_t)r->severity, (uint8_t)r->unit,  (uint8_t)r->high,
                              (uint8_t)r->middle, (uint8_t)r->low,      (uint8_t)r->status};
    return record;
}

int main(int count, char **words) {
    static uint8_t listing[ROOM], room[ROOM];
    static skr_code_record urgent[SKR_MOST_LISTED];
    size_t len = count == 2 ? read_file(words[1], listing, ROOM) : SIZE_MAX, found = 0;
    if (len == SIZE_MAX) {
        fprintf(stderr, "usage: severities FILE\n");
        return 2;
    }
    skr_listing head = skr_read_listing(SKR_BY_SEVERITY_MASK, listing, len);
    if (head.number != SKR_ACCEPTED) return print_refusal(head.number, head.first, head.second);
    for (size_t place = 0; place < head.count; place++) {
        skr_listed r = skr_listing_record(SKR_BY_SEVERITY_MASK, listing, len, place);
        print_record(place, &r);
        if (r.severity & SKR_CHECK_IMMEDIATELY) urgent[found++] = handed(&r);
    }

    skr_written w = skr_write_listing(SKR_BY_SEVERITY_MASK, (uint8_t)head.mask, (const uint8_t *)urgent, found * sizeof *urgent,
                                      room, ROOM);
    if (w.number != SKR_ACCEPTED) /* never: these are records of 0x08, and the room is ample */
        return print_refusal(w.number, w.first, w.second);
    printf("check immediately: %zu of %" PRIu64 ", a listing of %" PRIu64 " bytes\n", found, head.count, w.written);
    return 0;
}
