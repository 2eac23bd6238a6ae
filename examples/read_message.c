/* Reads a whole message off the adapter, with its service byte, from a file: a line about it, by its sort.
 *
 *     tools/library
 *     cc -Iinclude examples/read_message.c target/staticlib/libskrolvind.a -o read_message
 *     ./read_message FILE
 *
 * The exit status is 0 where the message is accepted, 1 where it is refused, and 2 where the file cannot be read.
 */
#include "shared.h"
#include "skrolvind.h"

static const char *const kinds[] = {
    [SKR_ADD_FILE] = "AddFile",   [SKR_DELETE_FILE] = "DeleteFile", [SKR_REPLACE_FILE] = "ReplaceFile",
    [SKR_READ_FILE] = "ReadFile", [SKR_READ_DIR] = "ReadDir",       [SKR_RESUME_FILE] = "ResumeFile",
};

static const char *const sub_functions[] = {
    [SKR_START_ROUTINE] = "Start", [SKR_STOP_ROUTINE] = "Stop", [SKR_ROUTINE_RESULTS] = "Results",
};

static void print_size(const char *what, uint64_t high, uint64_t low) {
    if (high == 0)
        printf(", %s 0x%" PRIx64, what, low);
    else
        printf(", %s 0x%" PRIx64 "%016" PRIx64, what, high, low);
}

static void print_file_transfer(const skr_message *m, size_t len) {
    printf(", format 0x%02" PRIx64, m->format);
    print_size("uncompressed", m->uncompressed_high, m->uncompressed_low);
    print_size("compressed", m->compressed_high, m->compressed_low);
    printf(", left over %" PRIu64 "\n", len - m->tail);
}

static void print_message(const uint8_t *message, size_t len, const skr_message *m) {
    switch (m->service) {
    case SKR_SERVICE_FILE_REQUEST:
        printf("request: %s of \"", kinds[m->kind]);
        fwrite(message + m->start, 1, m->len, stdout); /* the name is a part of the message, and may hold a zero byte */
        printf("\"");
        print_file_transfer(m, len);
        break;
    case SKR_SERVICE_FILE_RESPONSE:
        printf("response: %s, block length of %" PRIu64 " bytes, position %" PRIu64, kinds[m->kind], m->len, m->position);
        print_file_transfer(m, len);
        break;
    case SKR_SERVICE_ROUTINE_REQUEST:
        printf("routine request: %s of 0x%04" PRIx64 ", suppress %" PRIu64 ", record of %" PRIu64 " bytes\n",
               sub_functions[m->sub_function], m->identifier, m->suppress, m->len);
        break;
    case SKR_SERVICE_ROUTINE_RESPONSE:
        printf("routine response: %s of 0x%04" PRIx64 ", record of %" PRIu64 " bytes\n", sub_functions[m->sub_function], m->identifier,
               m->len);
        break;
    case SKR_SERVICE_NEGATIVE:
        printf("negative answer to 0x%02" PRIx64 ": code 0x%02" PRIx64 "%s\n", m->negative_service, m->code, m->listed ? "" : ", unlisted");
        break;
    }
}

int main(int count, char **words) {
    static uint8_t message[2 * SKR_LONGEST_MESSAGE]; /* so that one that goes on after its end is seen to */
    size_t len = count == 2 ? read_file(words[1], message, sizeof message) : SIZE_MAX;
    if (len == SIZE_MAX) {
        fprintf(stderr, "usage: read_message FILE\n");
        return 2;
    }
    skr_message m = skr_read_message(message, len);
    if (m.number != SKR_ACCEPTED) return print_refusal(m.number, m.first, m.second);
    print_message(message, len, &m);
    return 0;
}
