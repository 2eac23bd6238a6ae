/* Makes the month's sheet from a file of records of 8 bytes: how many there are in that month, and a line for each refusal number that
 * occurs, with its count and its words.
 *
 *     tools/library
 *     cc -Iinclude examples/month_sheet.c target/staticlib/libskrolvind.a -o month_sheet
 *     ./month_sheet MONTH FILE
 *
 * The month is a number from 1 to 12. The exit status is 0 where the records are accepted, 1 where they are refused, and 2 where the
 * month is none or the file cannot be read.
 */
#include <stdlib.h>

#include "shared.h"
#include "skrolvind.h"

enum { RECORD = 8, NUMBERS = 10 };

static void print_count(uint32_t times, uint64_t number) {
    uint8_t words[SKR_LONGEST_REFUSAL_TEXT];
    skr_written w = skr_refusal_text(number, words, sizeof words);
    printf("%6" PRIu32 "  %" PRIu64 " %.*s\n", times, number, (int)w.written, (const char *)words);
}

int main(int count, char **words) {
    static uint8_t records[2 * RECORD * SKR_MOST_RECORDS]; /* so that a sheet that is too long is seen to be */
    char *end = NULL;
    long month = count == 3 ? strtol(words[1], &end, 10) : 0;
    size_t len = count == 3 ? read_file(words[2], records, sizeof records) : SIZE_MAX;
    if (len == SIZE_MAX || *end != '\0' || month < 1 || month > 12) {
        fprintf(stderr, "usage: month_sheet MONTH FILE\n");
        return 2;
    }
    skr_tally tally = skr_tally_records(records, len);
    if (tally.number != SKR_ACCEPTED) return print_refusal(tally.number, tally.first, tally.second);
    const uint32_t *cells = tally.cells + NUMBERS * (month - 1);
    uint32_t all = 0;
    for (int number = 0; number < NUMBERS; number++) all += cells[number];
    printf("month %ld: %" PRIu32 " records\n", month, all);
    for (int number = 0; number < NUMBERS; number++)
        if (cells[number] != 0) print_count(cells[number], (uint64_t)number);
    return 0;
}
