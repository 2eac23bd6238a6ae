/* One fault at a time in front of the library, to see that the comparison finds it: SKROLVIND_FAULT is its number, 1 to 169; with 0 there is none.
 * Each function calls the library's own, which `try` has given the prefix real_, and spoils the answer. `try` counts the lines that have FAULT ==. */
#include <stdlib.h>
#include <string.h>
#include "../../include/skrolvind.h"

static long FAULT;

__attribute__((constructor)) static void choose(void)
{
    const char *number = getenv("SKROLVIND_FAULT");
    if (number) FAULT = atol(number);
}

/* How many characters stand in the first bytes of a name. */
static uint64_t characters(const uint8_t *name, uint64_t bytes) {
    uint64_t count = 0;
    for (uint64_t i = 0; i < bytes; i++) count += (name[i] & 0xC0) != 0x80;
    return count;
}

#define DOOR(type, name, parameters, ...) \
    type real_##name parameters;          \
    type name parameters { __VA_ARGS__ }

/* The bytes that a caller lent for reading, as if for writing. */
#define LENT(pointer) ((uint8_t *)(pointer))

uint64_t real_skr_valid_up_to(const uint8_t *, size_t);

DOOR(skr_file_transfer, skr_read_request, (const uint8_t *m, size_t n),
     skr_file_transfer r = real_skr_read_request(m, n);
     if (FAULT == 1 && r.number) r.tail = n;                            /* a field is set after a refusal */
     if (FAULT == 2) r.compressed_low &= 0xFFFFFFFFu;                   /* a size is cut to 32 bits */
     if (FAULT == 3 && r.kind == 6 && r.len == 3) r.tail -= 1;          /* the tail is off by one, for one kind and one name's length */
     if (FAULT == 4 && r.number == 1 && r.first == 35) r.first += 1;    /* needed is off by one, at width 17 */
     if (FAULT == 22 && r.number == 2 && real_skr_valid_up_to(m + 3, n - 3) > 300) memset(&r, 0, sizeof r); /* a fault far inside a name is passed over */
     if (FAULT == 30 && r.tail > 0 && r.tail < n) LENT(m)[r.tail] = 0;  /* a zero is put behind the message in the caller's buffer */
     if (FAULT == 39 && r.number == 2) r.first += 3;                    /* where the name goes bad is counted from the message's start */
     if (FAULT == 40 && r.number == 2) r.first = characters(m + 3, r.first); /* the good characters are counted, not their bytes */
     return r;)

DOOR(skr_file_transfer, skr_read_response, (const uint8_t *m, size_t n),
     skr_file_transfer r = real_skr_read_response(m, n);
     if (FAULT == 5 && r.number == 6) r.first &= 0xFF;                  /* a one-byte width */
     if (FAULT == 6 && r.len > 1 && m[r.start] == 0) { r.start++; r.len--; } /* a zero is trimmed off the block length */
     if (FAULT == 33 && !m) { r.number = 3; r.first = 0; r.second = 0; } /* a null pointer is no empty message */
     return r;)

DOOR(skr_routine, skr_read_routine_request, (const uint8_t *m, size_t n),
     skr_routine r = real_skr_read_routine_request(m, n);
     if (FAULT == 7 && r.number == 4) r.first = m[0];                   /* refusal 4 carries the whole byte */
     return r;)

DOOR(skr_routine, skr_read_routine_response, (const uint8_t *m, size_t n),
     skr_routine r = real_skr_read_routine_response(m, n);
     if (FAULT == 8 && r.number == 0 && n > 65538) r.len = 65535;       /* a long record is cut */
     return r;)

DOOR(skr_written, skr_write_request,
     (uint8_t k, const uint8_t *a, size_t an, uint8_t f, uint64_t uh, uint64_t ul, uint64_t ch, uint64_t cl, uint8_t *r, size_t rn),
     skr_written w = real_skr_write_request(k, a, an, f, uh, ul, ch, cl, r, rn);
     if (FAULT == 9 && w.number == 7 && rn > 0) r[0] = k;               /* a refused write changes a byte */
     if (FAULT == 10 && w.number == 0 && w.written < rn) r[w.written] = 0; /* one byte more is written */
     if (FAULT == 11 && w.number == 0 && w.written == rn && k == 5) r[rn] = 0; /* a byte is written past the room */
     if (FAULT == 23 && w.number == 2 && an < 65536 && real_skr_valid_up_to(a, an) > 300) { w.number = 7; w.first = an + 3; w.second = rn; } /* room is judged before a fault far inside a name */
     if (FAULT == 25 && an > 65535 && rn > 65571) memcpy(r + 3, a, 65535); /* an over-long name is refused when it is written already */
     if (FAULT == 28 && w.number == 0) r[-1] = 0;                       /* a byte is written before the room */
     if (FAULT == 34 && !a) w.number = 2;                               /* an empty name must have a pointer */
     if (FAULT == 41 && w.number == 2) w.first = 0;                     /* the writer does not say where the name goes bad */
     if (FAULT == 42 && w.number == 2 && an > 65535) w.first = 65535;   /* an over-long name carries the limit */
     return w;)

DOOR(skr_written, skr_write_response,
     (uint8_t k, const uint8_t *a, size_t an, uint8_t f, uint64_t uh, uint64_t ul, uint64_t ch, uint64_t cl, uint64_t p, uint8_t *r, size_t rn),
     if (FAULT == 12 && k == 5) { ch = 0; cl = 0; uh = 0; }             /* the high half of ReadDir's size is lost */
     if (FAULT == 13 && k == 2 && an > 255) { skr_written x = {2, 0, 0, 0}; return x; } /* DeleteFile refuses a long block length */
     if (FAULT == 26 && k != 2 && an > 255 && rn > 300) r[an + 1] = f;  /* an over-long block length is refused after the format byte is written */
     skr_written w = real_skr_write_response(k, a, an, f, uh, ul, ch, cl, p, r, rn);
     if (FAULT == 31 && k == 2 && an > 0) LENT(a)[0] = 0;               /* a block length that is not written is cleared */
     return w;)

DOOR(skr_written, skr_write_routine_request,
     (bool s, uint8_t f, uint16_t i, const uint8_t *d, size_t dn, uint8_t *r, size_t rn),
     if (FAULT == 14 && dn == 65535) { skr_written x = {2, 0, 0, 0}; return x; } /* the longest record is refused */
     if (FAULT == 27 && dn > 65535 && rn > dn + 2) r[0] = f;            /* an over-long record is refused after the sub-function is written */
     return real_skr_write_routine_request(s, f, i, d, dn, r, rn);)

DOOR(skr_written, skr_write_routine_response,
     (uint8_t f, uint16_t i, const uint8_t *d, size_t dn, uint8_t *r, size_t rn),
     if (FAULT == 15 && f == 0xFF) f = 3;                               /* a sub-function that does not exist is let in */
     if (FAULT == 35 && !r) rn = 1;                                     /* a null room is told with another length */
     return real_skr_write_routine_response(f, i, d, dn, r, rn);)

DOOR(skr_rewritten, skr_rewrite_request, (const uint8_t *m, size_t n, uint8_t *r, size_t rn),
     skr_rewritten w = real_skr_rewrite_request(m, n, r, rn);
     if (FAULT == 16 && w.number == 7) w.first = n;                     /* needed is the length of the message that was read */
     if (FAULT == 32 && w.number == 0 && w.written < n) memcpy(LENT(m), r, w.written); /* the message is rewritten in its own place as well */
     if (FAULT == 43 && w.number == 2 && m[3 + w.first] == 0xE2) w.first += 1; /* where a character is cut, its second byte is told */
     if (FAULT == 143 && w.number == 0) w.tail = w.written;             /* the tail is how much was written */
     return w;)

DOOR(skr_rewritten, skr_rewrite_response, (const uint8_t *m, size_t n, uint8_t *r, size_t rn),
     skr_rewritten w = real_skr_rewrite_response(m, n, r, rn);
     if (FAULT == 17 && w.number == 0 && m[0] == 6) r[w.written - 1] ^= (n == 20); /* a bit of a position is turned, at one length */
     if (FAULT == 29 && w.number == 7 && rn == 0) r[-1] ^= 0x80;        /* a refused write changes the byte before an empty room */
     if (FAULT == 36 && !m && rn > 0) r[0] = 0;                         /* a null message is rewritten as a byte, and refused */
     if (FAULT == 144 && w.number == 7) w.tail = real_skr_read_response(m, n).tail; /* the tail stays after a refusal */
     if (FAULT == 145 && w.number == 0 && m[0] == 4) w.tail -= 1;       /* the tail is off by one, for one kind */
     return w;)

DOOR(skr_written, skr_refusal_text, (uint64_t n, uint8_t *r, size_t rn),
     uint8_t all[100];
     skr_written w = real_skr_refusal_text(FAULT == 140 && n == 14 ? 13 : n, r, rn); /* another number's words for one number */
     if (FAULT == 141 && !w.number && w.written < rn) r[w.written] = 0; /* a zero byte ends the text */
     if (FAULT == 142 && w.number == 7) { real_skr_refusal_text(n, all, sizeof all); memcpy(r, all, rn); } /* a room that is too small is filled with what it takes */
     return w;)

DOOR(skr_desk, skr_desk_check, (const uint8_t *m, size_t n),
     skr_desk d = real_skr_desk_check(m, n);
     skr_file_transfer r = real_skr_read_request(m, n);
     bool unequal = r.compressed_low != r.uncompressed_low || r.compressed_high != r.uncompressed_high;
     if (FAULT == 18 && d.number == 9 && r.format == 0 && unequal) { d.number = 8; d.first = 0; } /* 8 before 9 */
     if (FAULT == 45 && d.number == 0 && r.format == 0xF0 && unequal) d.number = 8; /* format 0xF0 is taken for 0x00 */
     if (FAULT == 46 && d.number == 8 && r.compressed_low == r.uncompressed_low) d.number = 0; /* sizes are compared by the low half */
     if (FAULT == 44 && d.number == 2) d.first = 0;                     /* the desk does not pass up where the name goes bad */
     return d;)

DOOR(skr_why, skr_why_request, (const uint8_t *m, size_t n),
     skr_why w = real_skr_why_request(m, n);
     if (FAULT == 57 && w.field == 2) w.offset = 3;                     /* the name is said to begin at its letters */
     if (FAULT == 58 && n && (m[0] == 0 || m[0] > 6)) { w.number = 3; w.first = m[0]; w.second = 0; w.field = 1; w.offset = 0; } /* an unknown mode is told before the name is judged */
     return w;)

DOOR(skr_why, skr_why_response, (const uint8_t *m, size_t n),
     skr_why w = real_skr_why_response(m, n);
     if (FAULT == 59 && w.field == 4 && w.number == 6) w.offset -= 1;   /* a bad width is told at the format byte */
     if (FAULT == 60 && n == 1 && m[0] == 2) { w.number = 1; w.first = 1; w.field = 5; w.offset = 1; } /* a reason for a response that is accepted */
     return w;)

DOOR(uint64_t, skr_valid_up_to, (const uint8_t *m, size_t n),
     uint64_t v = real_skr_valid_up_to(m, n);
     if (FAULT == 19 && n == 4 && m[0] == 0xF4 && m[1] == 0x8F && m[2] == 0xBF && m[3] == 0xBF) v = 0; /* the last character is refused */
     if (FAULT == 24 && v < n && v > 300) v -= v % 64;                  /* a fault far inside is told at the start of its block */
     if (FAULT == 37 && v + 1 < n) LENT(m)[n - 1] = '?';                /* the end of a bad name is changed */
     return v;)

DOOR(skr_trouble_code, skr_dtc_from_number, (uint32_t n),
     skr_trouble_code c = real_skr_dtc_from_number(n);
     if (FAULT == 20 && n == 0x01FFFFFFu) { c.number = 0; c.first = 0; c.high = c.middle = c.low = 255; } /* a number is cut to 24 bits */
     return c;)

DOOR(skr_next_trouble_code, skr_dtc_next, (const uint8_t *m, size_t n),
     skr_next_trouble_code c = real_skr_dtc_next(m, n);
     if (FAULT == 21 && n == 8) c.tail = 4;                             /* the next code begins one byte late */
     if (FAULT == 38 && c.found && n > 3) LENT(m)[3] = 0;               /* the first byte of the next code is cleared */
     return c;)

DOOR(skr_tally, skr_tally_records, (const uint8_t *m, size_t n),
     skr_tally t = real_skr_tally_records(m, n);
     if (FAULT == 47 && t.number == 11) t.first *= 8;                   /* the place counts bytes, not records */
     if (FAULT == 48 && t.number == 12 && n % 8) t.number = 10;         /* a cut record is told before too many */
     if (FAULT == 49) for (int i = 0; i < 120; i++) if (t.cells[i] > 65535) t.cells[i] = 65535; /* a count is held at 65,535 */
     return t;)

DOOR(skr_replay, skr_replay_log, (const uint8_t *m, size_t n),
     skr_replay r = real_skr_replay_log(m, n);
     const uint8_t *bad = m + 4 * r.first;
     if (FAULT == 50 && r.repeats) r.total += r.repeats;                /* a repeat adds a byte */
     if (FAULT == 51 && r.number == 14 && r.last == 255 && bad[1] == 1) { r.number = 0; r.first = 0; r.last = 1; } /* 255 followed by 1 */
     if (FAULT == 52 && r.number == 14 && r.has_last) r.last = bad[1];  /* the state after the bad record */
     if (FAULT == 53 && r.number == 13 && bad[0] == 0x36 && bad[1] != 1) r.number = 14; /* 14 before 13 */
     if (FAULT == 54 && r.number == 12 && n % 4) r.number = 10;         /* 10 before 12 */
     return r;)

DOOR(skr_replay, skr_replay_step,
     (bool o, bool h, uint8_t l, uint64_t p, uint64_t t, uint8_t s, uint8_t k, uint16_t b, size_t i),
     skr_replay r = real_skr_replay_step(o, h, l, p, t, s, k, b, i);
     if (FAULT == 55 && r.number == 0 && !r.open && h) { r.has_last = 1; r.last = l; } /* the last counter is kept once closed */
     if (FAULT == 56 && r.number == 12) { r.number = 0; r.total += b; } /* a total is cut to 64 bits */
     return r;)

DOOR(skr_batch, skr_read_batch, (const uint8_t *m, size_t n, const uint32_t *k, size_t c, uint8_t *list, size_t room),
     skr_batch r = real_skr_read_batch(m, n, k, c, list, room);
     uint32_t sum = 0;
     for (size_t i = 0; i < c; i++) sum += k[i];
     size_t at = 0;
     if (FAULT == 61 && !r.number) memset(list + c, 0, room - c);       /* entries beyond the count are zeroed */
     if (FAULT == 62 && r.number == 10 && sum == (uint32_t)n) r.number = 0; /* lengths are added up in 32 bits */
     if (FAULT == 63 && r.number == 10 && room < c) { r.number = 7; r.first = c; r.second = room; } /* 7 before 10 */
     if (FAULT == 64 && r.number == 7) memset(list, 0, room);           /* the list is filled before 7 is judged */
     if (FAULT == 65 && !r.number) for (size_t i = 0; i < c; at += k[i++]) list[i] = (uint8_t)real_skr_desk_check(m + at, k[i]).number; /* the desk check in place of the reader */
     return r;)

DOOR(skr_split, skr_split_joined, (const uint8_t *m, size_t n, uint32_t *k, size_t room),
     skr_split r = real_skr_split_joined(m, n, k, room);
     size_t at = 0;
     if (FAULT == 66 && r.number && r.number != 7) r.count = 0;         /* the place of the piece that is refused is not told */
     if (FAULT == 67 && r.number == 7) memset(k, 0, room * sizeof *k);            /* the list is emptied before 7 is judged */
     if (FAULT == 68 && !r.number) for (size_t i = 0; i < r.count; i++) { uint8_t u[66000]; size_t l = k[i]; k[i] = (uint32_t)real_skr_rewrite_request(m + at, l, u, sizeof u).written; at += l; } /* the lengths that rewriting would give */
     if (FAULT == 69 && !r.number && r.count > 1) r.count--;            /* the last piece is not counted */
     if (FAULT == 70 && r.number == 12) { r.number = 0; r.count = 4096; } /* what follows 4,096 pieces is passed over */
     return r;)

DOOR(skr_message, skr_read_message, (const uint8_t *m, size_t n),
     skr_message r = real_skr_read_message(m, n);
     if (FAULT == 71 && r.number == 9 && n == 4 && m[0] == 0x7F && (m[1] == 0x38 || m[1] == 0x31)) { r.number = 0; r.first = 0; r.service = 0x7F; r.negative_service = m[1]; r.code = m[2]; } /* four bytes are read as three */
     if (FAULT == 72 && r.number == 9 && m[1] != 0x38 && m[1] != 0x31) { r.number = 11; r.first = 0; } /* 11 before 9 */
     if (FAULT == 73 && r.service == 0x31) r.start -= 1;                /* a place is counted behind the service byte */
     if (FAULT == 74 && r.negative_service == 0x38 && r.code == 0x72) r.listed = 1; /* the list of 0x31 is used for 0x38 */
     return r;)

DOOR(skr_written, skr_write_request_message,
     (uint8_t k, const uint8_t *a, size_t an, uint8_t f, uint64_t uh, uint64_t ul, uint64_t ch, uint64_t cl, uint8_t *r, size_t rn),
     skr_written w = real_skr_write_request_message(k, a, an, f, uh, ul, ch, cl, r, rn);
     if (FAULT == 75 && w.number == 7) w.first -= 1;                    /* the service byte is not counted in 7 */
     return w;)

DOOR(skr_written, skr_write_response_message,
     (uint8_t k, const uint8_t *a, size_t an, uint8_t f, uint64_t uh, uint64_t ul, uint64_t ch, uint64_t cl, uint64_t p, uint8_t *r, size_t rn),
     skr_written w = real_skr_write_response_message(k, a, an, f, uh, ul, ch, cl, p, r, rn);
     if (FAULT == 76 && w.number == 7 && rn == 1) r[0] = 0x78;          /* the service byte is put into a room of one byte before the refusal */
     return w;)

DOOR(skr_written, skr_write_routine_request_message,
     (bool s, uint8_t f, uint16_t i, const uint8_t *d, size_t dn, uint8_t *r, size_t rn),
     skr_written w = real_skr_write_routine_request_message(s, f, i, d, dn, r, rn);
     if (FAULT == 77 && w.number == 0) r[0] = 0x71;                     /* a request is sent as a response */
     return w;)

DOOR(skr_written, skr_write_routine_response_message,
     (uint8_t f, uint16_t i, const uint8_t *d, size_t dn, uint8_t *r, size_t rn),
     return real_skr_write_routine_response_message(f, i, d, dn, r, rn);)

DOOR(skr_written, skr_write_negative, (uint8_t s, uint8_t c, uint8_t *r, size_t rn),
     skr_written w = real_skr_write_negative(s, c, r, rn);
     if (FAULT == 78 && w.number == 11 && rn < 3) { w.number = 7; w.first = 3; w.second = rn; } /* 7 before 11 */
     return w;)

/* How many bytes a record of a listing has, how many whole records there are, and where the code of one begins. */
#define SIZE(s) ((s) == 0x08 ? 6 : 4)
#define RECORDS(s, n) (((n) - 3) / SIZE(s))
#define CODE(s, i) (3 + SIZE(s) * (i) + SIZE(s) - 4)

/* The first record that is handed over to be written whose mark does not fit, or how many there are. */
static size_t unfit(uint8_t s, const uint8_t *d, size_t dn) {
    size_t i = 0;
    while (i < dn / 7 && (d[7 * i] != 0) == (s == 0x08)) i++;
    return i;
}

DOOR(skr_listing, skr_read_listing, (uint8_t s, const uint8_t *m, size_t n),
     skr_listing r = real_skr_read_listing(s, m, n);
     if (FAULT == 79 && r.count == 4096) { r.number = 12; r.mask = 0; r.count = 0; } /* 4,096 records are too many */
     if (FAULT == 80 && r.number == 10) { r.number = 0; r.mask = m[2]; r.count = RECORDS(s, n); } /* a cut record is passed over */
     if (FAULT == 89 && s == 0x08 && !r.number) r.count = (n - 3) / 4;      /* records with a severity are counted as those without */
     if (FAULT == 90 && r.number == 15 && n > 2 && m[0] == 0x59) r = real_skr_read_listing(m[1], m, n); /* whatever was asked for, the listing's own sub-function is taken */
     return r;)

DOOR(skr_listed, skr_listing_record, (uint8_t s, const uint8_t *m, size_t n, size_t p),
     skr_listed r = real_skr_listing_record(s, m, n, p);
     if (FAULT == 81 && !r.number && !r.found && n > 3) r = real_skr_listing_record(s, m, n, RECORDS(s, n) - 1); /* past the end the last record is handed out */
     if (FAULT == 91 && r.found) { uint64_t severity = r.severity; r.severity = r.unit; r.unit = severity; } /* severity and functional unit change places */
     if (FAULT == 92 && r.found && !r.severity && !r.unit) r.known = 0;     /* a severity of 0 is taken for an unknown one */
     if (FAULT == 93 && s == 0x08 && !r.number) r.known = 1;                /* past the end a severity is known */
     return r;)

DOOR(skr_index, skr_listing_index, (uint8_t s, const uint8_t *m, size_t n),
     skr_index r = real_skr_listing_index(s, m, n);
     if (FAULT == 82 && !r.number) for (int h = 0; h < 256; h++) if (!r.counts[h]) r.firsts[h] = 1; /* the first place is 1 where there is no record */
     if (FAULT == 83) for (int h = 0; h < 256; h++) r.counts[h] &= 0xFF;    /* a count is held in a byte */
     if (FAULT == 94 && s == 0x08 && !r.number) { memset(r.counts, 0, sizeof r.counts); for (size_t i = 0; i < RECORDS(s, n); i++) r.counts[m[3 + 6 * i]]++; } /* severities are counted in place of high bytes */
     if (FAULT == 95 && s == 0x08 && !r.number) for (int h = 0; h < 256; h++) r.firsts[h] = 6 * r.firsts[h]; /* a first place counts bytes */
     return r;)

DOOR(skr_found, skr_listing_lookup,
     (uint8_t s, const uint8_t *m, size_t n, const uint32_t *c, size_t cn, const uint32_t *f, size_t fn, uint8_t h, uint8_t d, uint8_t l),
     skr_found r = real_skr_listing_lookup(s, m, n, c, cn, f, fn, h, d, l);
     uint8_t code[] = {h, d, l};
     if (FAULT == 84 && !r.number) for (size_t i = r.place; i < RECORDS(s, n); i++) if (!memcmp(m + CODE(s, i), code, 3)) { r.place = i; r.status = m[CODE(s, i) + 3]; } /* the last record that has the code */
     if (FAULT == 85 && !r.number && r.place + 1 == RECORDS(s, n)) { memset(&r, 0, sizeof r); r.number = 16; } /* 16 where the code stands in the last record */
     skr_index own = real_skr_listing_index(s, m, n);
     skr_found by_own = real_skr_listing_lookup(s, m, n, own.counts, 256, own.firsts, 256, h, d, l);
     if (FAULT == 86 && r.number == 11 && by_own.number == 16) r = by_own;  /* 16 before 11 */
     if (FAULT == 87 && r.number == 11 && h < cn && h < fn && c[h] == own.counts[h] && f[h] == own.firsts[h]) r = by_own; /* the index is compared at the code's high byte alone */
     if (FAULT == 96 && r.known && !(r.severity & SKR_ANY_CLASS)) { memset(&r, 0, sizeof r); r.number = 16; } /* a record whose severity names no class is passed over */
     if (FAULT == 97 && r.known) r.severity = m[3];                         /* the severity of the first record stands for all */
     return r;)

DOOR(skr_written, skr_write_listing, (uint8_t s, uint8_t k, const uint8_t *d, size_t dn, uint8_t *r, size_t rn),
     if (FAULT == 88 && dn / 7 <= 4096) dn -= dn % 7;                       /* a cut record is left out */
     skr_written w = real_skr_write_listing(s, k, d, dn, r, rn);
     size_t at = unfit(s, d, dn);
     size_t needed = 3 + SIZE(s) * (dn / 7);
     if (FAULT == 98 && w.number == 11 && rn < needed) { w.number = 7; w.first = needed; w.second = rn; } /* 7 before 11 */
     if (FAULT == 99 && w.number == 10 && at < dn / 7) { w.number = 11; w.first = at; } /* 11 before 10 */
     if (FAULT == 100 && w.number == 12 && at < 4096) { w.number = 11; w.first = at; } /* 11 before 12 */
     if (FAULT == 101 && w.number == 11) w.first *= 7;                      /* the place counts bytes, not records */
     if (FAULT == 102 && w.number == 11) for (size_t i = at; i < dn / 7; i++) if ((d[7 * i] == 0) == (d[7 * at] == 0)) w.first = i; /* the last record that does not fit is told */
     if (FAULT == 103 && s == 0x08 && !w.number) for (size_t i = 0; i < dn / 7; i++) if (d[7 * i] > 1) { w.number = 11; w.first = i; w.written = 0; } /* a mark above 1 is none */
     if (FAULT == 104 && s == 0x02 && w.number == 11 && !d[7 * at + 1] && !d[7 * at + 2]) { w.number = 0; w.first = 0; } /* a known severity of 0 is taken for an unknown one */
     if (FAULT == 105 && w.number == 11 && rn >= needed) r[0] = 0x59;       /* the first byte is written before marks are judged */
     return w;)

/* A text as it would be with some characters of it left out or changed, for faults that take more than they should. */
static uint8_t other[70000];

/* The text with small letters made large. */
static size_t capitals(const uint8_t *t, size_t n) {
    for (size_t i = 0; i < n; i++) other[i] = t[i] >= 'a' && t[i] <= 'z' ? t[i] - 32 : t[i];
    return n;
}

/* The text without carriage returns, or without line feeds that follow no line. */
static size_t without(uint8_t character, const uint8_t *t, size_t n) {
    size_t kept = 0;
    for (size_t i = 0; i < n; i++) if (t[i] != character || (character == '\n' && i && t[i - 1] != '\n')) other[kept++] = t[i];
    return kept;
}

DOOR(skr_written, skr_code_text, (uint8_t h, uint8_t d, uint8_t l, uint8_t *r, size_t rn),
     if (FAULT == 106 && (h >> 6) % 3) h ^= 0xC0;                           /* the letters stand in the order P, B, C, U */
     skr_written w = real_skr_code_text(h, d, l, r, rn);
     if (FAULT == 107 && !w.number) for (int i = 2; i < 8; i++) if (r[i] > '9') r[i] += 32; /* hex digits are small */
     if (FAULT == 108 && !w.number && rn > 8) r[8] = 0;                     /* a zero byte ends the text */
     return w;)

DOOR(skr_trouble_code, skr_read_code_text, (const uint8_t *t, size_t n),
     skr_trouble_code r = real_skr_read_code_text(t, n);
     if (FAULT == 109 && r.number && n == 8) r = real_skr_read_code_text(other, capitals(t, n)); /* small letters are taken */
     if (FAULT == 110 && r.number && r.first == 8) r = real_skr_read_code_text(t, 8); /* what follows eight characters is passed over */
     if (FAULT == 111 && r.number && r.first == n && n) r.first -= 1;       /* a text that ends early is told at its last character */
     if (FAULT == 112 && r.number && n < 8) r.first = n;                    /* a text that is too short is told at its end, whatever stands in it */
     return r;)

DOOR(skr_written, skr_export_listing, (uint8_t s, const uint8_t *m, size_t n, uint8_t *r, size_t rn),
     skr_written w = real_skr_export_listing(s, m, n, r, rn);
     if (FAULT == 113 && w.written) w.written -= 1;                         /* the last line has no line feed */
     if (FAULT == 114 && w.written > 12 && !memcmp(m + CODE(s, 0), m + CODE(s, 1), 3)) w.written -= 12; /* a code that stands twice has one line */
     if (FAULT == 115 && w.number == 10 && rn < 12 * RECORDS(s, n)) { w.number = 7; w.first = 12 * RECORDS(s, n); w.second = rn; } /* 7 before 10 */
     if (FAULT == 116 && s == 0x08 && !w.number) for (size_t i = 0; i < w.written / 12; i++) r[12 * i + 10] = "0123456789ABCDEF"[m[3 + 6 * i] % 16]; /* a half of the severity in place of the status */
     return w;)

DOOR(skr_written, skr_import_listing, (uint8_t k, const uint8_t *t, size_t n, uint8_t *r, size_t rn),
     skr_written w = real_skr_import_listing(k, t, n, r, rn);
     uint64_t place = w.first;
     if (FAULT == 117 && w.number == 18) w = real_skr_import_listing(k, other, without('\r', t, n), r, rn); /* carriage returns are passed over */
     if (FAULT == 118 && w.number == 18) w = real_skr_import_listing(k, other, without('\n', t, n), r, rn); /* empty lines are passed over */
     if (FAULT == 119 && w.number == 18) w = real_skr_import_listing(k, other, capitals(t, n), r, rn); /* small letters are taken */
     if (FAULT == 120 && w.number == 18 && place == n && n % 12 == 11) w = real_skr_import_listing(k, t, n - 11, r, rn); /* a last line without its end is left out */
     if (FAULT == 121 && w.number == 18 && n / 12 > 4096) { w.number = 12; w.first = 0; } /* 12 before 18 */
     if (FAULT == 122 && w.number == 12 && rn < 3 + n / 3) { w.number = 7; w.first = 3 + n / 3; w.second = rn; } /* 7 before 12 */
     if (FAULT == 123 && w.number == 18) w.first %= 12;                     /* a place is counted in its line */
     if (FAULT == 124 && w.number == 18 && place >= 12 && rn > 6) r[0] = 0x59; /* a line is written before the next one is judged */
     if (FAULT == 125 && !w.number && w.written > 3) r[2] = 0xFF;           /* the availability mask is not the importer's */
     return w;)

/* Brings the entries of one sort to the front, each part in its order. */
static void first_those(uint8_t change, uint8_t *r, uint64_t n) {
    uint64_t at = 0;
    for (int turn = 0; turn < 2; turn++)
        for (uint64_t i = 0; i < n; i += 6) if ((r[i] == change) == !turn) { memcpy(other + at, r + i, 6); at += 6; }
    memcpy(r, other, n);
}

/* Leaves out the entries that differ with equal statuses, where `all` or else where no severity is known but 0; answers how many bytes are left. */
static uint64_t left_out(bool all, uint8_t *r, uint64_t n, uint8_t s, const uint8_t *m, size_t mn) {
    uint64_t kept = 0;
    skr_index own = real_skr_listing_index(s, m, mn);
    for (uint64_t i = 0; i < n; i += 6) {
        skr_found f = real_skr_listing_lookup(s, m, mn, own.counts, 256, own.firsts, 256, r[i + 1], r[i + 2], r[i + 3]);
        if (r[i] != 2 || r[i + 4] != r[i + 5] || (!all && (!f.known || f.severity || f.unit))) { memmove(r + kept, r + i, 6); kept += 6; }
    }
    return kept;
}

DOOR(skr_changes, skr_listing_changes,
     (uint8_t s, const uint8_t *m, size_t n, uint8_t t, const uint8_t *k, size_t o, uint8_t *r, size_t rn),
     skr_changes c = real_skr_listing_changes(s, m, n, t, k, o, r, rn);
     skr_changes alone = real_skr_listing_changes(t, k, o, t, k, o, r, 0);
     skr_listing second = real_skr_read_listing(t, k, o);
     if (FAULT == 126 && c.number) c.which = 0;                             /* which listing is refused is not told */
     if (FAULT == 127 && c.which == 1 && alone.number) { c = alone; c.which = 2; } /* the second listing is judged first */
     if (FAULT == 128 && c.number == 17 && c.which == 1 && second.number) { c.number = second.number; c.first = second.first; c.second = second.second; c.which = 2; } /* 17 of the first behind what reading refuses of the second */
     if (FAULT == 129 && c.number == 17) c.first -= 1;                      /* 17 tells the record before */
     if (FAULT == 130 && c.number == 17) { c.number = 0; c.first = 0; c.which = 0; } /* a code that stands twice is passed over */
     if (FAULT == 131 && c.number == 17 && c.which == 2 && !rn) { c.number = 7; c.first = 6; c.which = 0; } /* 7 before 17 */
     if (FAULT == 132 && !c.number) c.written = left_out(true, r, c.written, s, m, n); /* records are compared by their status alone */
     if (FAULT == 133 && !c.number && s == 0x08 && t == 0x02) c.written = left_out(false, r, c.written, s, m, n); /* an unknown severity equals one of 0 */
     if (FAULT == 134 && !c.number) first_those(1, r, c.written);           /* what is gone stands before what differs */
     if (FAULT == 135 && !c.number) first_those(3, r, c.written);           /* what is new stands first */
     if (FAULT == 136 && !c.number) for (uint64_t i = 0; i < c.written; i += 6) if (r[i] == 1) r[i + 5] = r[i + 4]; /* what is gone keeps its status */
     if (FAULT == 137 && c.number == 7) { c.first /= 6; c.second /= 6; }    /* 7 counts entries, not bytes */
     if (FAULT == 138 && c.number == 7 && rn >= 6) r[0] = 1;                /* an entry is written before the room is judged */
     if (FAULT == 139 && !c.number && c.written && m[2] == k[2]) c.written -= 6; /* the last entry is lost where the masks are equal */
     return c;)

/* A width or a length in two bytes. */
#define WIDTH(b) (256u * (b)[0] + (b)[1])

DOOR(skr_part, skr_read_name, (const uint8_t *b, size_t n),
     skr_part r = real_skr_read_name(b, n);
     if (FAULT == 146 && r.number == 1 && n >= 2) r.first -= 2;             /* what a name needs does not count its length */
     if (FAULT == 147 && r.number == 2) { r.number = 0; r.first = 0; r.start = 2; r.len = WIDTH(b); r.tail = 2 + r.len; } /* a name is not judged */
     if (FAULT == 148 && r.number == 2) r.first += 2;                       /* where a name goes bad is counted from its length */
     return r;)

DOOR(skr_part, skr_read_block_length, (const uint8_t *b, size_t n),
     skr_part r = real_skr_read_block_length(b, n);
     if (FAULT == 149 && r.len == 255) r.tail -= 1;                         /* the tail is off by one, at the longest */
     if (FAULT == 150 && r.len > 1 && b[1] == 0) { r.start++; r.len--; }    /* a zero is trimmed off the block length */
     return r;)

DOOR(skr_sizes, skr_read_sizes, (const uint8_t *b, size_t n),
     skr_sizes r = real_skr_read_sizes(b, n);
     skr_sizes s = r;
     if (FAULT == 151) { r.uncompressed_high = s.compressed_high; r.uncompressed_low = s.compressed_low; r.compressed_high = s.uncompressed_high; r.compressed_low = s.uncompressed_low; } /* the sizes are exchanged */
     if (FAULT == 152 && !r.number && b[0] == 16) r.compressed_high &= 0xFFFFFFFFFFFFFF; /* the last size loses its highest byte, at width 16 */
     return r;)

DOOR(skr_sizes, skr_read_file_sizes, (const uint8_t *b, size_t n),
     skr_sizes r = real_skr_read_file_sizes(b, n);
     if (FAULT == 153 && n > 1 && b[0]) r = real_skr_read_sizes(b + 1, n - 1); /* a one-byte width */
     if (FAULT == 154 && r.number == 1 && n > 1 && WIDTH(b) > 16) { r.number = 6; r.first = WIDTH(b); r.second = 0; } /* 6 before 1 */
     return r;)

DOOR(skr_sizes, skr_read_dir_size, (const uint8_t *b, size_t n),
     skr_sizes r = real_skr_read_dir_size(b, n);
     if (FAULT == 155) { r.compressed_high = r.uncompressed_high; r.compressed_low = r.uncompressed_low; } /* the one size is told twice */
     if (FAULT == 156 && r.number == 1 && n > 1) r.first = 2 + 2 * WIDTH(b); /* two sizes are needed where there is one */
     return r;)

DOOR(skr_position, skr_read_position, (const uint8_t *b, size_t n),
     skr_position r = real_skr_read_position(b, n);
     if (FAULT == 157 && !r.number) r.tail = n;                             /* what follows a position is passed over */
     if (FAULT == 158 && r.number) r.tail = n;                              /* a field is set after a refusal */
     return r;)

DOOR(skr_written, skr_write_name, (const uint8_t *a, size_t an, uint8_t *r, size_t rn),
     skr_written w = real_skr_write_name(a, an, r, rn);
     if (FAULT == 159 && w.number == 2 && an < 65536 && rn < an + 2) { w.number = 7; w.first = an + 2; w.second = rn; } /* 7 before 2 */
     if (FAULT == 160 && an > 65535 && rn > 65537) memcpy(r + 2, a, 65535); /* an over-long name is refused when it is written already */
     return w;)

DOOR(skr_written, skr_write_block_length, (const uint8_t *a, size_t an, uint8_t *r, size_t rn),
     skr_written w = real_skr_write_block_length(a, an, r, rn);
     if (FAULT == 161 && w.number == 7) w.first -= 1;                       /* what is needed does not count the count */
     if (FAULT == 162 && w.number == 7 && rn > 0) r[0] = (uint8_t)an;       /* the count is put into a room that is too small */
     return w;)

DOOR(skr_written, skr_write_sizes, (uint64_t uh, uint64_t ul, uint64_t ch, uint64_t cl, uint8_t *r, size_t rn),
     if (FAULT == 163) return real_skr_write_sizes(ch, cl, uh, ul, r, rn);  /* the sizes are exchanged */
     skr_written w = real_skr_write_sizes(uh, ul, ch, cl, r, rn);
     if (FAULT == 164 && w.number == 0 && w.written < rn) r[w.written] = 0; /* one byte more is written */
     return w;)

DOOR(skr_written, skr_write_file_sizes, (uint64_t uh, uint64_t ul, uint64_t ch, uint64_t cl, uint8_t *r, size_t rn),
     if (FAULT == 165 && rn > 2 && rn < 8 && (ul > 0xFFFF || cl > 0xFFFF)) r[0] = 0; /* the room is partly filled before the refusal */
     skr_written w = real_skr_write_file_sizes(uh, ul, ch, cl, r, rn);
     if (FAULT == 166 && w.written == 4) return real_skr_write_sizes(uh, ul, ch, cl, r, rn); /* a one-byte width where it is 1 */
     return w;)

DOOR(skr_written, skr_write_dir_size, (uint64_t h, uint64_t l, uint8_t *r, size_t rn),
     if (FAULT == 167) h &= 0xFFFFFFFFu;                                    /* a size is cut to 96 bits */
     return real_skr_write_dir_size(h, l, r, rn);)

DOOR(skr_written, skr_write_position, (uint64_t p, uint8_t *r, size_t rn),
     skr_written w = real_skr_write_position(p, r, rn);
     if (FAULT == 168 && w.number == 7) w.second = 0;                       /* the room is not told */
     if (FAULT == 169 && !w.number && p >> 63) r[0] &= 0x7F;                /* a position is taken for a number with a sign */
     return w;)
