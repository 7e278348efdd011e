/* Counts the pieces of memory that the library asks for, and refuses one of them: for programs that are linked with
 * -Wl,--wrap=malloc,--wrap=realloc. */
#ifndef REFUSING_H
#define REFUSING_H

#include <stdbool.h>
#include <stddef.h>

void *__real_malloc(size_t size);
void *__real_realloc(void *block, size_t size);
void *__wrap_malloc(size_t size);
void *__wrap_realloc(void *block, size_t size);

static bool counts;        /* whether pieces are counted now */
static long asked;         /* how many there were */
static long refused_piece; /* which is refused, from 0 on; none where it is below 0 */

static bool is_refused(void) { return counts && asked++ == refused_piece; }

void *__wrap_malloc(size_t size) { return is_refused() ? NULL : __real_malloc(size); }
void *__wrap_realloc(void *block, size_t size) { return is_refused() ? NULL : __real_realloc(block, size); }

#endif
