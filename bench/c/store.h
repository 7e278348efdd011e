/* A store of rows as bench.c asks it: one of the three below. Each call ends the program where it is refused. */
#ifndef STORE_H
#define STORE_H

#include <stdbool.h>
#include <stdint.h>
#include <stdio.h>
#include <stdlib.h>

#ifndef BODY_BYTES
#define BODY_BYTES 16
#endif

/* A row: a key, four columns, and a body of so many bytes. */
struct row {
    uint64_t key;
    int64_t cols[4];
    uint8_t body[BODY_BYTES];
};

struct store {
    const char *name;
    void (*open)(void);
    void (*close)(void);
    /* every other call lies between these two */
    void (*begin)(bool writes);
    void (*commit)(void);
    void (*insert)(const struct row *row);
    void (*update)(const struct row *row);
    void (*remove)(uint64_t key);
    /* copies the row of the key, which has to be there */
    void (*get)(uint64_t key, struct row *row);
    /* reads all rows: how many there are, and what their first columns come to */
    uint64_t (*scan)(int64_t *sum);
};

extern const struct store sandpipercot_store, lmdb_store, sqlite_store;

/* Ends the program unless the call did what it should. */
#define DID(is)                                                                                                                            \
    do {                                                                                                                                   \
        if (!(is)) {                                                                                                                       \
            fprintf(stderr, "%s:%d: refused: %s\n", __FILE__, __LINE__, #is);                                                              \
            exit(1);                                                                                                                       \
        }                                                                                                                                  \
    } while (0)

#endif
