/* Tells what changed between two trouble-code listings from files, each of sub-function 0x02 or 0x08: a line about each code, as the
 * workshop writes it.
 *
 *     tools/library
 *     cc -Iinclude examples/what_changed.c target/staticlib/libskrolvind.a -o what_changed
 *     ./what_changed BEFORE AFTER
 *
 * The exit status is 0 where both listings are accepted, 1 where one is refused, and 2 where a file cannot be read.
 */
#include "shared.h"
#include "skrolvind.h"

/* More bytes than any listing has; and as many changes as two of them can have. */
enum { ROOM = 2 * SKR_LONGEST_LISTING, MOST = 2 * SKR_MOST_LISTED };

/* The sub-function that the listing itself names. */
static uint8_t sub(const uint8_t *listing, size_t len) {
    return len > 1 && listing[1] == SKR_BY_SEVERITY_MASK ? SKR_BY_SEVERITY_MASK : SKR_BY_STATUS_MASK;
}

static void print_change(const skr_change *c) {
    uint8_t code[8];
    skr_code_text(c->high, c->middle, c->low, code, sizeof code);
    printf("%.8s ", (const char *)code);
    if (c->change == SKR_GONE) printf("is gone, its status was %02x\n", c->old_status);
    if (c->change == SKR_DIFFERS) printf("differs, its status was %02x and is %02x\n", c->old_status, c->new_status);
    if (c->change == SKR_NEW) printf("is new, its status is %02x\n", c->new_status);
}

int main(int count, char **words) {
    static uint8_t before[ROOM], after[ROOM];
    static skr_change changes[MOST];
    size_t before_len = count == 3 ? read_file(words[1], before, ROOM) : SIZE_MAX;
    size_t after_len = count == 3 ? read_file(words[2], after, ROOM) : SIZE_MAX;
    if (before_len == SIZE_MAX || after_len == SIZE_MAX) {
        fprintf(stderr, "usage: what_changed BEFORE AFTER\n");
        return 2;
    }
    skr_changes made = skr_listing_changes(sub(before, before_len), before, before_len, sub(after, after_len), after, after_len,
                                           (uint8_t *)changes, sizeof changes);
    if (made.number != SKR_ACCEPTED) {
        printf("listing %" PRIu64 ": ", made.which);
        return print_refusal(made.number, made.first, made.second);
    }
    for (size_t i = 0; i < made.written / sizeof *changes; i++) print_change(&changes[i]);
    return 0;
}
