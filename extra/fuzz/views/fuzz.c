/*
 * Views compared with values, for libFuzzer, on the inputs of ../fuzz.c. run.sh builds and runs it; lib.rs has the
 * comparison, and the numbers that it returns. Lists end where a page begins that cannot be touched.
 */
#include <stddef.h>
#include <stdint.h>
#include <stdio.h>
#include <stdlib.h>
#include <string.h>
#include <sys/mman.h>

enum { MOST = 1 << 17, PAGE = 1 << 12 };

ptrdiff_t fuzz_views(uint32_t family, const uint8_t *bytes, size_t len);

static uint8_t *list_end;
static uint32_t families; /* how many attribute sets there are */

int LLVMFuzzerInitialize(int *argc, char ***argv) {
    (void)argc, (void)argv;
    uint8_t *room = mmap(NULL, MOST + PAGE, PROT_READ | PROT_WRITE, MAP_PRIVATE | MAP_ANONYMOUS, -1, 0);
    if (room == MAP_FAILED || mprotect(room + MOST, PAGE, PROT_NONE)) abort();
    list_end = room + MOST;
    while (fuzz_views(families, list_end, 0) == 0) families++;
    return 0;
}

int LLVMFuzzerTestOneInput(const uint8_t *data, size_t size) {
    if (size == 0 || size - 1 > MOST) return 0;
    uint8_t *bytes = memcpy(list_end - (size - 1), data + 1, size - 1);
    ptrdiff_t result = fuzz_views((data[0] & 0x7F) % families, bytes, size - 1);
    if (result == 0 && !memcmp(bytes, data + 1, size - 1)) return 0;
    fprintf(stderr, "fuzz_views returns %td\n", result);
    abort();
}
