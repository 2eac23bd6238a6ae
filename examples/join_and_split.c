/* Rewrites the file transfer requests in some files into one buffer, one after the other and without their lengths; takes that buffer
 * apart again; and reads all of it in one call: a line about each file, and one about each request that comes back.
 *
 *     tools/library
 *     cc -Iinclude examples/join_and_split.c target/staticlib/libskrolvind.a -o join_and_split
 *     ./join_and_split FILE..
 *
 * The exit status is 0 where every file has a request, 1 where one is refused, and 2 where a file cannot be read.
 */
#include "shared.h"
#include "skrolvind.h"

/* Room for some requests. */
enum { ROOM = 1000000 };

int main(int count, char **words) {
    static uint8_t message[2 * SKR_LONGEST_REQUEST], joined[ROOM];
    static uint32_t lengths[SKR_MOST_MESSAGES];
    static uint8_t numbers[SKR_MOST_MESSAGES];
    size_t len = 0;
    int status = 0;
    for (int i = 1; i < count; i++) {
        size_t message_len = read_file(words[i], message, sizeof message);
        if (message_len == SIZE_MAX) {
            fprintf(stderr, "join_and_split: %s cannot be read\n", words[i]);
            return 2;
        }
        /* joins: the request of a file is written behind those that stand there already */
        skr_rewritten w = skr_rewrite_request(message, message_len, joined + len, ROOM - len);
        printf("file %d: ", i);
        if (w.number != SKR_ACCEPTED) {
            status = print_refusal(w.number, w.first, w.second);
            continue;
        }
        printf("%" PRIu64 " bytes behind %zu, left over %" PRIu64 "\n", w.written, len, message_len - w.tail);
        len += w.written;
    }

    skr_split split = skr_split_joined(joined, len, lengths, SKR_MOST_MESSAGES);
    if (split.number != SKR_ACCEPTED) { /* never, as long as only whole requests were joined, and at most 4,096 */
        printf("request %" PRIu64 ": ", split.count);
        return print_refusal(split.number, split.first, split.second);
    }
    printf("%" PRIu64 " requests in %zu bytes\n", split.count, len);

    skr_batch batch = skr_read_batch(joined, len, lengths, split.count, numbers, SKR_MOST_MESSAGES);
    if (batch.number != SKR_ACCEPTED) /* never: these are the buffer's own lengths */
        return print_refusal(batch.number, batch.first, batch.second);
    for (size_t k = 0; k < split.count; k++) printf("request %zu: %" PRIu32 " bytes, read with %d\n", k, lengths[k], numbers[k]);
    return status;
}
