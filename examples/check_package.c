/* Checks a package at the desk: its file transfer request, from a file. A line has the desk's verdict, and where the request cannot
 * be read a second one has the field that stopped it and the byte at which that field begins.
 *
 *     tools/library
 *     cc -Iinclude examples/check_package.c target/staticlib/libskrolvind.a -o check_package
 *     ./check_package FILE
 *
 * The exit status is 0 where the desk passes the request, 1 where it is refused, and 2 where the file cannot be read.
 */
#include "shared.h"
#include "skrolvind.h"

static const char *const fields[] = {
    [SKR_FIELD_MODE] = "mode",
    [SKR_FIELD_NAME] = "name",
    [SKR_FIELD_FORMAT_BYTE] = "format byte",
    [SKR_FIELD_SIZE_GROUP] = "size group",
};

int main(int count, char **words) {
    static uint8_t message[2 * SKR_LONGEST_REQUEST]; /* so that one that goes on after its end is seen to */
    size_t len = count == 2 ? read_file(words[1], message, sizeof message) : SIZE_MAX;
    if (len == SIZE_MAX) {
        fprintf(stderr, "usage: check_package FILE\n");
        return 2;
    }
    skr_desk desk = skr_desk_check(message, len);
    if (desk.number == SKR_ACCEPTED) {
        printf("the desk passes it\n");
        return 0;
    }
    print_refusal(desk.number, desk.first, desk.second);
    skr_why why = skr_why_request(message, len);
    /* bytes left over and unequal sizes are the desk's reasons alone: such a request can be read, and no field stopped it */
    if (why.field != SKR_FIELD_NONE) printf("the field: %s at %" PRIu64 "\n", fields[why.field], why.offset);
    return 1;
}
