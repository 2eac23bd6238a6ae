/* What the examples in C share: a file is read, bytes and a refusal are printed. */
#ifndef SHARED_H
#define SHARED_H

#include <inttypes.h>
#include <stdio.h>

#include "skrolvind.h"

/* Reads a whole file into the room: how many bytes it has, or SIZE_MAX where it cannot be read or has more than the room. */
static inline size_t read_file(const char *path, uint8_t *room, size_t room_len) {
    FILE *file = fopen(path, "rb");
    if (file == NULL) return SIZE_MAX;
    size_t len = fread(room, 1, room_len, file);
    bool whole = fgetc(file) == EOF && !ferror(file);
    fclose(file);
    return whole ? len : SIZE_MAX;
}

/* Prints a line of bytes, each as two hex digits. */
static inline void print_bytes(const uint8_t *bytes, size_t len) {
    for (size_t i = 0; i < len; i++) printf(i == 0 ? "%02x" : " %02x", bytes[i]);
    printf("\n");
}

/* Prints a refusal with what it means, and answers the exit status of a program that is refused. */
static inline int print_refusal(uint64_t number, uint64_t first, uint64_t second) {
    uint8_t words[SKR_LONGEST_REFUSAL_TEXT];
    skr_written w = skr_refusal_text(number, words, sizeof words);
    printf("refused %" PRIu64 " %" PRIu64 " %" PRIu64 ": %.*s\n", number, first, second, (int)w.written, (const char *)words);
    return 1;
}

#endif
