/* Answers a request off the adapter, with its service byte, from a file: prints the bytes of the answer in hex. A file that is to be
 * added, replaced or resumed is answered with how long a block may be; a request that cannot be read, or that the desk refuses, with a
 * negative answer whose code fits, and so is one to read a file or a folder, since there is none here.
 *
 *     tools/library
 *     cc -Iinclude examples/answer_message.c target/staticlib/libskrolvind.a -o answer_message
 *     ./answer_message FILE
 *
 * The exit status is 0 where the answer is positive, 1 where it is negative or this is no request, and 2 where the file cannot be read.
 */
#include "shared.h"
#include "skrolvind.h"

/* Codes of negative answers. */
enum { NO_SUB_FUNCTION = 0x12, WRONG_LENGTH = 0x13, OUT_OF_RANGE = 0x31 };

/* Blocks of 4,096 bytes. */
static const uint8_t block_length[] = {0x10, 0x00};

static uint8_t code_for(uint64_t number) {
    switch (number) {
    case SKR_UNKNOWN_SUB_FUNCTION: return NO_SUB_FUNCTION;
    case SKR_TOO_SHORT:
    case SKR_LEFT_OVER: return WRONG_LENGTH;
    default: return OUT_OF_RANGE;
    }
}

/* Whether a request is refused: by its reader, and of file transfer by the desk too. */
static skr_desk judged(const uint8_t *message, size_t len, const skr_message *m) {
    if (message[0] == SKR_SERVICE_FILE_REQUEST) return skr_desk_check(message + 1, len - 1);
    skr_desk routine = {m->number, m->first, m->second};
    return routine;
}

static skr_written positive(const skr_message *m, uint8_t *room, size_t room_len) {
    if (m->service == SKR_SERVICE_ROUTINE_REQUEST)
        return skr_write_routine_response_message((uint8_t)m->sub_function, (uint16_t)m->identifier, NULL, 0, room, room_len);
    return skr_write_response_message((uint8_t)m->kind, block_length, sizeof block_length, (uint8_t)m->format, 0, 0, 0, 0, 0, room,
                                      room_len); /* sizes and position are 0: what is resumed begins anew */
}

int main(int count, char **words) {
    static uint8_t message[2 * SKR_LONGEST_MESSAGE], answer[SKR_LONGEST_MESSAGE];
    size_t len = count == 2 ? read_file(words[1], message, sizeof message) : SIZE_MAX;
    if (len == SIZE_MAX) {
        fprintf(stderr, "usage: answer_message FILE\n");
        return 2;
    }
    if (len == 0 || (message[0] != SKR_SERVICE_FILE_REQUEST && message[0] != SKR_SERVICE_ROUTINE_REQUEST)) {
        printf("this is no request\n");
        return 1;
    }
    skr_message m = skr_read_message(message, len);
    skr_desk refused = judged(message, len, &m);
    uint8_t code = 0; /* none: the answer is positive */
    if (refused.number != SKR_ACCEPTED) {
        print_refusal(refused.number, refused.first, refused.second);
        code = code_for(refused.number);
    } else if (m.kind == SKR_READ_FILE || m.kind == SKR_READ_DIR) {
        code = OUT_OF_RANGE;
    } else if (m.suppress) {
        printf("no positive answer is wanted\n");
        return 0;
    }
    skr_written w = code != 0 ? skr_write_negative(message[0], code, answer, sizeof answer) : positive(&m, answer, sizeof answer);
    if (w.number != SKR_ACCEPTED) return print_refusal(w.number, w.first, w.second); /* never: the room is ample */
    print_bytes(answer, w.written);
    return code != 0;
}
