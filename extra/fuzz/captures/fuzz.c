/*
 * Inputs of nlshow, for libFuzzer. If the lowest bit of the first byte is set, the others are given with --raw. nlshow
 * reads each input in whole, and once more in pieces, of at most as many bytes as the first byte says. Then:
 *
 * - both outputs are the same;
 * - the output is lines of printable ASCII, unless the input is lines, which are repeated;
 * - the status is 0 or 1; it is 1 if there is an input error, which is the last line.
 *
 * run.sh builds and runs it. It renames what nlshow calls: reads and writes are from and to memory.
 */
#include <stdbool.h>
#include <stddef.h>
#include <stdint.h>
#include <stdio.h>
#include <stdlib.h>
#include <string.h>
#include <sys/types.h>

int nlshow_main(int argc, char **argv);
ptrdiff_t fuzz_arg(size_t index, char *to, size_t room);
ssize_t fuzz_read(int file, void *to, size_t room);
ssize_t fuzz_write(int file, const void *from, size_t size);

struct text {
    char *bytes;
    size_t len, room;
};

static const char *words[] = {"nlshow", "--raw"};
static const uint8_t *input;
static size_t word_count, left, most, piece;
static struct text *output;

static void must(bool holds, const char *what) {
    if (holds) return;
    fprintf(stderr, "not so: %s\n", what);
    abort();
}

/* Stores a word of the command line. Returns its length, -1 if there is none, or -2 if it does not fit. */
ptrdiff_t fuzz_arg(size_t index, char *to, size_t room) {
    if (index >= word_count) return -1;
    size_t len = strlen(words[index]);
    if (len > room) return -2;
    memcpy(to, words[index], len);
    return (ptrdiff_t)len;
}

ssize_t fuzz_read(int file, void *to, size_t room) {
    must(file == 0, "it reads standard input");
    piece = piece % most + 1;
    size_t size = left < room ? left : room;
    if (size > piece) size = piece;
    memcpy(to, input, size);
    input += size, left -= size;
    return (ssize_t)size;
}

ssize_t fuzz_write(int file, const void *from, size_t size) {
    must(file == 1, "it writes to standard output");
    if (output->len + size > output->room) {
        output->room = 2 * (output->len + size);
        output->bytes = realloc(output->bytes, output->room);
        must(output->bytes != NULL, "there is memory");
    }
    memcpy(output->bytes + output->len, from, size);
    output->len += size;
    return (ssize_t)size;
}

static int run(struct text *to, const uint8_t *data, size_t size, size_t most_at_once) {
    input = data, left = size, most = most_at_once, piece = most_at_once - 1;
    output = to, to->len = 0;
    return nlshow_main((int)word_count, (char **)words);
}

static bool is_capture(const uint8_t *data, size_t size) {
    static const char magic[][5] = {"\xd4\xc3\xb2\xa1", "\xa1\xb2\xc3\xd4", "\x4d\x3c\xb2\xa1", "\xa1\xb2\x3c\x4d", "\n\r\r\n"};
    for (size_t i = 0; i < sizeof magic / sizeof *magic; i++)
        if (size >= 4 && !memcmp(data, magic[i], 4)) return true;
    return word_count == 2;
}

/* Checks the lines of a capture. Returns whether the last is an input error. */
static bool check_lines(const struct text *text) {
    static const char error[] = "input error at ";
    bool ended = false;
    for (size_t at = 0, next; at < text->len; at = next) {
        must(!ended, "nothing follows an input error");
        for (next = at; next < text->len && text->bytes[next] != '\n'; next++)
            must(text->bytes[next] >= ' ' && text->bytes[next] <= '~', "the output is printable");
        must(next++ < text->len, "the last line ends in LF");
        ended = next - at > sizeof error && !memcmp(text->bytes + at, error, sizeof error - 1);
    }
    return ended;
}

int LLVMFuzzerTestOneInput(const uint8_t *data, size_t size) {
    static struct text whole, cut;
    if (size == 0) return 0;
    word_count = 1 + data[0] % 2;
    int status = run(&whole, data + 1, size - 1, SIZE_MAX);
    must(run(&cut, data + 1, size - 1, 1 + data[0] / 2) == status, "the status is the same in pieces");
    must(whole.len == cut.len && !memcmp(whole.bytes, cut.bytes, cut.len), "the output is the same in pieces");
    must(status == 0 || status == 1, "the status is 0 or 1");
    if (is_capture(data + 1, size - 1)) must(!check_lines(&whole) || status == 1, "the status of an input error is 1");
    return 0;
}
