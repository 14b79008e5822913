/* figures BOOK: the totals of a book in whole oere, or its refusal. It ends with 0 for figures, 1 for a refusal and 2 where the
 * book could not be read or the answer not be written. In the project's folder:
 *
 *     tools/native
 *     gcc -std=c99 -Iinclude examples/figures.c target/native/libdesk.a -o target/figures
 *     target/figures examples/guide.book */
#include <inttypes.h>
#include <stdio.h>
#include <stdlib.h>

#include "desk.h"

enum { CLASSES = 24, INSTRUMENTS = 64, POINTS = 201, FIRST_ROOM = 16384 };

static int64_t rows[CLASSES * POINTS];
static uint16_t choice[CLASSES + INSTRUMENTS];

/* The whole file and its length; NULL where it can't be read. The caller frees it. */
static uint8_t *read_book(FILE *from, size_t *len) {
    size_t room = FIRST_ROOM;
    uint8_t *book = malloc(room);
    *len = 0;
    while (book != NULL) {
        *len += fread(book + *len, 1, room - *len, from);
        if (*len < room) break;
        uint8_t *more = room <= SIZE_MAX / 2 ? realloc(book, 2 * room) : NULL;
        if (more == NULL) free(book);
        book = more;
        room *= 2;
    }
    if (book != NULL && ferror(from)) {
        free(book);
        book = NULL;
    }
    return book;
}

int main(int argc, char **argv) {
    size_t len = 0;
    FILE *from = argc == 2 ? fopen(argv[1], "rb") : NULL;
    uint8_t *book = from != NULL ? read_book(from, &len) : NULL;
    if (from != NULL) fclose(from);
    if (book == NULL) {
        fprintf(stderr, "figures: no book to read: figures BOOK\n");
        return 2;
    }
    uint64_t code, place;
    int64_t mark, naked, cross;
    desk_run(book, len, rows, sizeof rows / sizeof *rows, choice, sizeof choice / sizeof *choice,
             &code, &place, &mark, &naked, &cross);
    free(book);
    if (code != 0) printf("refused: ");
    printf("code %" PRIu64 ", place %" PRIu64 "\n", code, place);
    if (code == 0) printf("mark %" PRId64 "\nnaked %" PRId64 "\ncross %" PRId64 "\n", mark, naked, cross);
    if (fflush(stdout) != 0) return 2;
    return code != 0;
}
