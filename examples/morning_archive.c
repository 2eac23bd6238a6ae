/* Reads a morning's archive in one call: file transfer requests that stand in a file one after the other. How long each one is stands
 * in a second file, four bytes to a length, high first; without that file the requests are taken apart first. A line about each request
 * that is refused, and a last one with their count.
 *
 *     tools/library
 *     cc -Iinclude examples/morning_archive.c target/staticlib/libskrolvind.a -o morning_archive
 *     ./morning_archive ARCHIVE [LENGTHS]
 *
 * The exit status is 0 where every request is accepted, 1 where one is refused, and 2 where a file cannot be read.
 */
#include "shared.h"
#include "skrolvind.h"

/* One length more than a call takes, so that too many are seen to be; and 16 MiB for a morning. */
enum { MOST = SKR_MOST_MESSAGES + 1, ROOM = 1 << 24 };

/* Reads the list of lengths: how many there are, or SIZE_MAX where the file is none. */
static size_t read_lengths(const char *path, uint32_t *lengths) {
    static uint8_t bytes[4 * MOST];
    size_t len = read_file(path, bytes, sizeof bytes);
    if (len == SIZE_MAX || len % 4 != 0) return SIZE_MAX;
    for (size_t i = 0; i < len; i += 4)
        lengths[i / 4] = (uint32_t)bytes[i] << 24 | (uint32_t)bytes[i + 1] << 16 | (uint32_t)bytes[i + 2] << 8 | bytes[i + 3];
    return len / 4;
}

static int print_refused(const uint8_t *archive, const uint32_t *lengths, const uint8_t *numbers, size_t messages) {
    size_t refused = 0, at = 0;
    for (size_t k = 0; k < messages; at += lengths[k], k++) {
        if (numbers[k] == SKR_ACCEPTED) continue;
        skr_file_transfer r = skr_read_request(archive + at, lengths[k]); /* the list has the number alone */
        printf("request %zu, %" PRIu32 " bytes at %zu: ", k, lengths[k], at);
        print_refusal(r.number, r.first, r.second);
        refused++;
    }
    printf("%zu requests, %zu refused\n", messages, refused);
    return refused != 0;
}

int main(int count, char **words) {
    static uint8_t archive[ROOM], numbers[MOST];
    static uint32_t lengths[MOST];
    size_t len = count == 2 || count == 3 ? read_file(words[1], archive, ROOM) : SIZE_MAX;
    size_t messages = count == 3 ? read_lengths(words[2], lengths) : 0;
    if (len == SIZE_MAX || messages == SIZE_MAX) {
        fprintf(stderr, "usage: morning_archive ARCHIVE [LENGTHS]\n");
        return 2;
    }
    if (count == 2) {
        skr_split split = skr_split_joined(archive, len, lengths, MOST);
        if (split.number != SKR_ACCEPTED) {
            printf("after %" PRIu64 " requests: ", split.count);
            return print_refusal(split.number, split.first, split.second);
        }
        messages = split.count;
    }
    skr_batch batch = skr_read_batch(archive, len, lengths, messages, numbers, MOST);
    if (batch.number != SKR_ACCEPTED) return print_refusal(batch.number, batch.first, batch.second);
    return print_refused(archive, lengths, numbers, messages);
}
