/* Stands before the C library's read and write, for standard input and standard output alone. READS and WRITES say how these calls go, by
 * three numbers each: how many bytes a call carries at most, how many calls are interrupted before each that goes through, and after how
 * many bytes calls fail, or -1. Where one isn't set, its calls carry all that they can. */
#include <errno.h>
#include <limits.h>
#include <stdio.h>
#include <stdlib.h>
#include <string.h>
#include <sys/syscall.h>
#include <unistd.h>

struct way {
    long piece, interruptions, end;
    long interrupted, carried;
    int fault;
};

static struct way reads = {LONG_MAX, 0, -1, 0, 0, ECONNRESET}, writes = {LONG_MAX, 0, -1, 0, 0, EPIPE};

static void set(struct way *way, const char *said) {
    if (said && sscanf(said, "%ld %ld %ld", &way->piece, &way->interruptions, &way->end) != 3) _exit(99);
}

__attribute__((constructor)) static void begin(void) {
    set(&reads, getenv("READS"));
    set(&writes, getenv("WRITES"));
}

/* How many bytes the call may carry, or -1 where it fails. */
static ssize_t allowed(struct way *way, size_t size) {
    if (way->interrupted < way->interruptions) {
        way->interrupted++;
        errno = EINTR;
        return -1;
    }
    way->interrupted = 0;
    if (way->end >= 0 && way->carried >= way->end) {
        errno = way->fault;
        return -1;
    }
    if (way->end >= 0 && size > (size_t)(way->end - way->carried)) size = way->end - way->carried;
    return size < (size_t)way->piece ? (ssize_t)size : way->piece;
}

/* What was read at once is handed out piece by piece, which saves calls of the system. */
static ssize_t handed_out(void *to, size_t size) {
    static char held[1 << 16];
    static ssize_t at, count;
    if (at == count) {
        at = 0;
        count = syscall(SYS_read, STDIN_FILENO, held, sizeof held);
        if (count <= 0) return count;
    }
    if (size > (size_t)(count - at)) size = count - at;
    memcpy(to, held + at, size);
    at += size;
    return size;
}

ssize_t read(int file, void *to, size_t size) {
    if (file != STDIN_FILENO) return syscall(SYS_read, file, to, size);
    ssize_t most = allowed(&reads, size);
    if (most < 0) return -1;
    ssize_t count = handed_out(to, most);
    if (count > 0) reads.carried += count;
    return count;
}

ssize_t write(int file, const void *from, size_t size) {
    if (file != STDOUT_FILENO) return syscall(SYS_write, file, from, size);
    ssize_t most = allowed(&writes, size);
    if (most < 0) return -1;
    ssize_t count = syscall(SYS_write, STDOUT_FILENO, from, most);
    if (count > 0) writes.carried += count;
    return count;
}
