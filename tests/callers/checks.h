/* What the tests in C share: a check that ends the program where it fails, and rows. */
#ifndef CHECKS_H
#define CHECKS_H

#include <sandpipercot.h>

#include <stdio.h>
#include <stdlib.h>
#include <string.h>

#define CHECK(is)                                                                                                                          \
    do {                                                                                                                                   \
        if (!(is)) {                                                                                                                       \
            fprintf(stderr, "%s:%d: not so: %s\n", __FILE__, __LINE__, #is);                                                               \
            exit(1);                                                                                                                       \
        }                                                                                                                                  \
    } while (0)

/* A place for a row, in a block of its own, whose ends a checker of memory watches. Its bytes are not set. */
static inline struct sandpiper_row *new_place(void) {
    struct sandpiper_row *place = malloc(sizeof *place);
    CHECK(place);
    return place;
}

/* Sets a row; the bytes of the body after its length stay as they were. */
static inline const struct sandpiper_row *set_row(struct sandpiper_row *row, uint64_t key, int64_t column, const char *body) {
    row->key = key;
    row->cols[0] = column;
    row->cols[1] = row->cols[2] = row->cols[3] = 0;
    row->length = (uint16_t)strlen(body);
    memcpy(row->body, body, row->length);
    return row;
}

static inline int has_body(const struct sandpiper_row *row, const char *body) {
    return row->length == strlen(body) && memcmp(row->body, body, row->length) == 0;
}

#endif
