/* Answers questions over standard input and output through the C header.
 *
 * A question begins with a 64-bit word for the operation, and what that operation takes follows. One function answers each
 * operation. Where the input is torn, a length passes the room here, an entry beside a lent buffer was touched, an answer can't
 * be written, or an operation is not known, the server ends with a status of its own for each. */
#include "desk.h"

extern long read(int fd, void *to, size_t n);
extern long write(int fd, const void *from, size_t n);

enum { KEPT = 16, MOST_BOOK = 1 << 22, MOST_ROWS = 1 << 16, MOST_CHOICE = 1 << 12 };

enum operation { RUN = 1 };

/* the statuses in which the server ends */
enum status { ANSWERED = 0, TORN = 1, TOO_LONG = 2, TOUCHED = 3, UNWRITTEN = 4, UNKNOWN = 5 };

static uint8_t book[MOST_BOOK];
static int64_t rows[MOST_ROWS + 2 * KEPT];
static uint16_t choice[MOST_CHOICE + 2 * KEPT];

/* how many of n bytes came before the input ended, or -1 where it can't be read */
static long take(void *to, size_t n) {
    size_t at = 0;
    while (at < n) {
        long got = read(0, (char *)to + at, n - at);
        if (got < 0) return -1;
        if (got == 0) break;
        at += (size_t)got;
    }
    return (long)at;
}

static int taken(void *to, size_t n) { return take(to, n) == (long)n; }

static int given(const void *from, size_t n) {
    size_t at = 0;
    while (at < n) {
        long put = write(1, (const char *)from + at, n - at);
        if (put <= 0) return 0;
        at += (size_t)put;
    }
    return 1;
}

static void guard(size_t rows_len, size_t choice_len) {
    for (size_t k = 0; k < KEPT; k++) {
        rows[k] = rows[KEPT + rows_len + k] = (int64_t)0x5a5a5a5a5a5a0000 + (int64_t)k;
        choice[k] = choice[KEPT + choice_len + k] = (uint16_t)(0x5a00 + k);
    }
}

static int guarded(size_t rows_len, size_t choice_len) {
    for (size_t k = 0; k < KEPT; k++) {
        int64_t row = (int64_t)0x5a5a5a5a5a5a0000 + (int64_t)k;
        uint16_t point = (uint16_t)(0x5a00 + k);
        if (rows[k] != row || rows[KEPT + rows_len + k] != row) return 0;
        if (choice[k] != point || choice[KEPT + choice_len + k] != point) return 0;
    }
    return 1;
}

/* Takes three 64-bit lengths (book, rows, choice), the book's bytes, the rows' and the choice's entries as they are lent. Gives
 * the five numbers, then both buffers' entries as they come back. */
static enum status run(void) {
    uint64_t lengths[3];
    if (!taken(lengths, sizeof lengths)) return TORN;
    size_t b = lengths[0], r = lengths[1], c = lengths[2];
    if (b > MOST_BOOK || r > MOST_ROWS || c > MOST_CHOICE) return TOO_LONG;
    if (!taken(book, b) || !taken(rows + KEPT, r * sizeof *rows) || !taken(choice + KEPT, c * sizeof *choice)) return TORN;
    guard(r, c);
    uint64_t head[5];
    int64_t *totals = (int64_t *)(head + 2);
    desk_run(book, b, rows + KEPT, r, choice + KEPT, c, head, head + 1, totals, totals + 1, totals + 2);
    if (!guarded(r, c)) return TOUCHED;
    if (!given(head, sizeof head) || !given(rows + KEPT, r * sizeof *rows)) return UNWRITTEN;
    return given(choice + KEPT, c * sizeof *choice) ? ANSWERED : UNWRITTEN;
}

static enum status answer(uint64_t operation) {
    switch (operation) {
    case RUN: return run();
    default: return UNKNOWN;
    }
}

int main(void) {
    enum status status = ANSWERED;
    while (status == ANSWERED) {
        uint64_t operation;
        long came = take(&operation, sizeof operation);
        if (came == 0) return ANSWERED;
        status = came == (long)sizeof operation ? answer(operation) : TORN;
    }
    return (int)status;
}
