/* Stands before the C library's malloc and realloc, which glibc has by other names too, and refuses one of their calls: the one whose
 * number, from 0 on, REFUSED says. The number of all calls is counted in the 8 bytes of the file that COUNTED names: a program need not
 * come to its destructors. */
#include <fcntl.h>
#include <stdatomic.h>
#include <stdlib.h>
#include <sys/mman.h>
#include <unistd.h>

void *__libc_malloc(size_t size);
void *__libc_realloc(void *block, size_t size);

static atomic_long early, *asked = &early;
static long refused = -1;

__attribute__((constructor)) static void begin(void) {
    const char *said = getenv("REFUSED"), *path = getenv("COUNTED");
    if (!said || !path) return;
    int file = open(path, O_RDWR);
    void *place = mmap(NULL, sizeof *asked, PROT_READ | PROT_WRITE, MAP_SHARED, file, 0);
    if (place == MAP_FAILED) _exit(99);
    asked = place;
    refused = atol(said);
    close(file);
}

void *malloc(size_t size) { return atomic_fetch_add(asked, 1) == refused ? NULL : __libc_malloc(size); }
void *realloc(void *block, size_t size) { return atomic_fetch_add(asked, 1) == refused ? NULL : __libc_realloc(block, size); }
