/*
 * A malloc that fails, to load before a program: `cc -shared -fPIC`, LD_PRELOAD.
 *
 * The environment says when. REFUSE is the place of the first allocation that fails, from 1 on, or 0 for none; all
 * after it fail too. If REFUSE_MARK is set, allocations count only between the first block of so many bytes and the
 * second. At the end of the program a line goes to the file descriptor REFUSE_TO: how many allocations counted, how
 * many of them failed, how many blocks are held, and how many marks were met.
 */
#define _POSIX_C_SOURCE 200809L

#include <stdbool.h>
#include <stdio.h>
#include <stdlib.h>
#include <unistd.h>

/* Those of the C library, under the names that it keeps for a malloc like this one. */
void *__libc_malloc(size_t size);
void *__libc_realloc(void *old, size_t size);
void __libc_free(void *block);

static unsigned long requests, refused, marks, place, mark;
static long held;

static unsigned long number(const char *name) {
    const char *text = getenv(name);
    return text == NULL ? 0 : strtoul(text, NULL, 10);
}

__attribute__((constructor)) static void begin(void) {
    place = number("REFUSE");
    mark = number("REFUSE_MARK");
}

static bool is_refused(size_t size) {
    if (mark != 0 && size == mark) {
        marks++;
        return false;
    }
    if (mark != 0 && marks != 1) return false;
    requests++;
    bool is = place != 0 && requests >= place;
    refused += is;
    return is;
}

void *malloc(size_t size) {
    void *block = is_refused(size) ? NULL : __libc_malloc(size);
    held += block != NULL;
    return block;
}

void *realloc(void *old, size_t size) {
    void *block = is_refused(size) ? NULL : __libc_realloc(old, size);
    held += old == NULL && block != NULL;
    return block;
}

void free(void *block) {
    held -= block != NULL;
    __libc_free(block);
}

__attribute__((destructor)) static void end(void) {
    dprintf((int)number("REFUSE_TO"), "%lu %lu %ld %lu\n", requests, refused, held, marks);
}
