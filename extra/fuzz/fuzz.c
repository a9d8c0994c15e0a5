/*
 * What holds of the calls of nlroute.h for all bytes and needs no second implementation, for libFuzzer. The first byte
 * of an input is the number of a family, and the others are a list; or, if its highest bit is set, an array of values to
 * write. run.sh builds and runs it.
 *
 * Lists and lent buffers end where a page begins that cannot be touched: the code of the library has no checks of
 * addresses, and would be stopped there.
 */
#include "nlroute.h"

#include <stdbool.h>
#include <stdio.h>
#include <stdlib.h>
#include <string.h>
#include <sys/mman.h>

enum { MOST = 1 << 17, PAGE = 1 << 12, ROOM = 1 << 22, LENT = 0xA5, TEXTS = 64 };

/* Ends of rooms for lists, texts, lent buffers and values, the start of one for lists, and room for two rewritings. */
static uint8_t *list_end, *odd_start, *text_end, *lent_end, *values_end, *once, *twice;

/* How many attribute sets there are, the one at hand, and the list or the bytes that values refer to. */
static uint32_t families, family;
static const uint8_t *bytes;
static size_t len;

static void must(bool holds, const char *what) {
    if (holds) return;
    fprintf(stderr, "not so: %s\n", what);
    abort();
}

static uint8_t *room_end(void) {
    uint8_t *room = mmap(NULL, ROOM + PAGE, PROT_READ | PROT_WRITE, MAP_PRIVATE | MAP_ANONYMOUS, -1, 0);
    must(room != MAP_FAILED && !mprotect(room + ROOM, PAGE, PROT_NONE), "there is room");
    return room + ROOM;
}

int LLVMFuzzerInitialize(int *argc, char ***argv) {
    (void)argc, (void)argv;
    list_end = room_end(), odd_start = room_end() - ROOM, text_end = room_end(), lent_end = room_end();
    values_end = room_end(), once = malloc(MOST + 4), twice = malloc(MOST + 4);
    must(once && twice, "there is memory");
    while (nlroute_count(families, list_end, 0) == 0) families++;
    return 0;
}

static size_t padded(void) { return (len + 3) / 4 * 4; }

static bool are_lent(const uint8_t *from, size_t count) {
    for (size_t i = 0; i < count; i++)
        if (from[i] != LENT) return false;
    return true;
}

typedef ptrdiff_t rewriting(uint32_t of, const uint8_t *list, size_t size, uint8_t *out, size_t room);
/* What a call answers with as much room as it ever needs; what it wrote, if it wrote a list, goes to `to`. */
static ptrdiff_t rewritten(rewriting *call, const uint8_t *list, size_t size, uint8_t *to) {
    size_t room = (size + 3) / 4 * 4;
    uint8_t *out = lent_end - room;
    memset(out - 4, LENT, room + 4);
    ptrdiff_t answer = call(family, list, size, out, room);
    must(answer >= NLROUTE_TOO_LONG && answer <= (ptrdiff_t)room, "a length up to that of the list, -1 or -2");
    must(are_lent(out - 4, 4), "nothing is written before the buffer");
    if (answer < 0) return answer;
    must(answer % 4 == 0 && are_lent(out + answer, room - (size_t)answer), "what stands behind is left");
    memcpy(to, out, (size_t)answer);
    return answer;
}

/* The count and the first fault, beside what was answered of a rewriting. */
static void counts_and_faults(ptrdiff_t answer) {
    ptrdiff_t count = nlroute_count(family, bytes, len);
    must(answer == NLROUTE_HAS_FAULT ? count == answer : count >= 0, "a count exactly if there is no fault");
    must(count <= (ptrdiff_t)(padded() / 4), "four bytes for each value");
    struct nlroute_fault fault;
    ptrdiff_t found = nlroute_first_fault(family, bytes, len, &fault);
    must(found == (count < 0 ? 0 : NLROUTE_ABSENT), "a fault exactly if there is no count");
    if (found < 0) return;
    must(fault.at < len && fault.at % 4 == 0, "a fault is at a frame of the list");
    must(fault.place <= NLROUTE_ELEMENT_PAYLOAD, "a place of a fault");
    must(fault.kind < 1 << 14 && fault.inner < 1 << 14, "kinds without flags");
    must(fault.cause - 1 < NLROUTE_ADDRESS_LENGTH, "a cause");
    char text[NLROUTE_TEXT_ROOM];
    must(nlroute_fault_text(family, &fault, text, sizeof text) == (ptrdiff_t)strlen(text), "a text of a fault");
    must(!strncmp(text, "error at ", 9) && strtoul(text + 9, NULL, 10) == fault.at, "which says where it is");
    must(nlroute_count(family, bytes, (size_t)fault.at) >= 0, "no fault before the first");
}

/* The calls for a text of a value. */
typedef const struct nlroute_value one;
typedef ptrdiff_t telling(one *it, char *to, size_t room);

static ptrdiff_t naming(one *it, char *to, size_t room) { return nlroute_kind_name(family, it, to, room); }
static ptrdiff_t texting(one *it, char *to, size_t room) { return nlroute_text(family, it, bytes, len, to, room); }
static ptrdiff_t numbering(one *it, char *to, size_t room) { return nlroute_number_name(family, it, to, room); }
static ptrdiff_t flagging(one *it, char *to, size_t room) {
    return nlroute_flag_name(family, it, (uint32_t)it->number & 63, to, room);
}

/* Each of these calls, with room for all of the text, for all but a byte of it, and for none. */
static void texts(one *it) {
    static telling *const calls[] = {naming, texting, numbering, flagging};
    for (size_t k = 0; k < sizeof calls / sizeof calls[0]; k++) {
        ptrdiff_t size = calls[k](it, (char *)text_end, 0);
        must(size >= NLROUTE_BAD_OCTETS && size <= 1 << 20, "the length of a text, or a refusal");
        size_t whole = size < 0 ? 0 : (size_t)size;
        for (size_t room = whole + 1; room > 0 && room + 2 > whole; room--) {
            char *text = (char *)text_end - room;
            memset(text - 1, LENT, room + 1);
            must(calls[k](it, text, room) == size, "the same length with any room");
            must((uint8_t)text[-1] == LENT, "nothing is written before a text");
            size_t stored = room - 1 < whole ? room - 1 : whole;
            must(strnlen(text, room) == stored, "as much of a text as there is room for, and a NUL");
            for (size_t i = 0; i < stored; i++) must(text[i] >= ' ' && text[i] <= '~', "a text is printable ASCII");
        }
    }
}

/* What is asked of the type of a value that was read. */
static void asked(one *it) {
    struct nlroute_row row;
    must(nlroute_read_row(family, it->kind, it->inner, it->depth, &row) == 0, "a value has a row");
    must(row.form == it->form && row.is_list == (it->form == NLROUTE_FORM_LIST), "of its form");
    char name[NLROUTE_TEXT_ROOM], text[NLROUTE_TEXT_ROOM];
    ptrdiff_t size = nlroute_kind_name(family, it, name, sizeof name);
    if (row.form != NLROUTE_FORM_UNKNOWN && name[0] != '[') {
        ptrdiff_t kind = it->depth ? nlroute_kind_of_in(family, it->kind, name, (size_t)size)
                                   : nlroute_kind_of(family, name, (size_t)size);
        must(kind == (it->depth ? it->inner : it->kind), "a type is found by its name");
    }
    uint64_t number;
    size = nlroute_number_name(family, it, name, sizeof name);
    if (size >= 0) must(!nlroute_number_of(family, it, name, (size_t)size, &number), "a number has its name");
    if (size >= 0) must(number == it->number, "and is found by it");
    struct nlroute_value bare = *it;
    bare.form = NLROUTE_FORM_OF_KIND;
    size = nlroute_text(family, &bare, bytes, len, text, sizeof text);
    if (row.form == NLROUTE_FORM_UNKNOWN) must(size == NLROUTE_BAD_FORM, "an unknown type has no form");
    else must(size == nlroute_text(family, it, bytes, len, name, sizeof name) && !strcmp(name, text), "the form is that of the type");
}

/* The fields of a value, which its text names in their order. That of a bridge ID has no names. */
static void fielded(one *it) {
    static char text[1 << 16];
    const char *rest = text;
    struct nlroute_field field;
    must(nlroute_text(family, it, bytes, len, text, sizeof text) >= 0, "a value has a text");
    for (size_t i = 0; i < len; i++) {
        ptrdiff_t code = nlroute_read_field(family, it, i, bytes, len, &field);
        must(code == 0 || code == NLROUTE_ABSENT, "a field, or there are no more");
        if (code) return;
        must(field.offset + field.length <= it->length, "a field is in its struct");
        if (it->form == NLROUTE_FORM_BRIDGE_ID) continue;
        rest = strstr(rest, field.name);
        must(rest != NULL, "a text names each field");
        rest += strlen(field.name);
    }
}

/* The values of a list, beside what was answered of a rewriting, whose bytes they are written as. */
static void valued(ptrdiff_t answer) {
    ptrdiff_t places = nlroute_places(family, bytes, len);
    must((places < 0) == (answer == NLROUTE_HAS_FAULT), "places exactly if there is no fault");
    must(places <= (ptrdiff_t)(len / 2), "two bytes for each place");
    if (places < 0) return;
    size_t count = (size_t)places;
    struct nlroute_value *values = (struct nlroute_value *)(void *)values_end - count;
    if (count > 0) {
        must(nlroute_values(family, bytes, len, values + 1, count - 1) == NLROUTE_NO_ROOM, "-4 with a place less");
        struct nlroute_value first = values[1 % count];
        must(nlroute_values(family, bytes, len, values, count) == places, "all values");
        must(count == 1 || !memcmp(&first, values, sizeof first), "the first values without room for all");
    }
    for (size_t i = 0, of = 0; i < count && i < TEXTS; i++) {
        struct nlroute_value found;
        one *it = &values[i];
        texts(it);
        asked(it);
        fielded(it);
        if (it->depth == 0) of = i;
        ptrdiff_t code = it->depth ? nlroute_find_in(family, bytes, len, it->kind, it->inner, &found)
                                   : nlroute_find(family, bytes, len, it->kind, &found);
        must(code == 0 || (it->depth && code == NLROUTE_ABSENT), "what is there is found");
        must(code || (found.kind == it->kind && found.depth == it->depth && found.offset >= values[of].offset), "the last");
    }
    size_t at = count, room = padded(), written = answer < 0 ? 0 : (size_t)answer;
    uint8_t *out = lent_end - room;
    must(nlroute_measure(family, values, count, bytes, len, &at) == answer, "values have the length of a rewriting");
    must((answer < 0) == (at < count), "the value that does not fit");
    memset(out, LENT, room);
    must(nlroute_write(family, values, count, bytes, len, out, room) == answer, "values are written");
    must(!memcmp(out, once, written), "as the list is rewritten");
    must(are_lent(out + written, room - written), "and nothing behind it");
}

/* Any values. What is written for them is a list. */
static void any_values(const uint8_t *data, size_t size) {
    size_t count = size / sizeof(struct nlroute_value), at = count;
    len = size % sizeof(struct nlroute_value) + size / 4;
    if (len > size) len = size;
    bytes = memcpy(list_end - len, data, len);
    struct nlroute_value *values = (struct nlroute_value *)(void *)values_end - count;
    memcpy(values, data, count * sizeof *values);
    for (size_t i = 0; i < count; i++) {
        values[i].kind &= 0x407F, values[i].form %= 21, values[i].depth &= values[i].depth % 8 ? 1 : 255;
        if (values[i].depth == 1 && i > 0) values[i].kind = values[i - 1].kind;
        if (values[i].length > 64) values[i].length %= 64;
        if (values[i].offset > len) values[i].offset %= len + 8;
        if (i < TEXTS) texts(&values[i]);
    }
    ptrdiff_t measured = nlroute_measure(family, values, count, bytes, len, &at);
    must(measured >= NLROUTE_BAD_OCTETS && measured <= 1 << 20, "a length or a refusal");
    must((measured < 0) == (at < count), "the first value at fault");
    size_t room = measured < 0 ? 0 : (size_t)measured;
    uint8_t *out = lent_end - room;
    memset(out - 4, LENT, room + 4);
    must(nlroute_write(family, values, count, bytes, len, out, room) == measured, "as long as it was measured");
    must(are_lent(out - 4, 4), "nothing is written before a list");
    if (measured < 0) return;
    must(nlroute_count(family, out, room) >= 0, "what is written is a list");
    must(nlroute_places(family, out, room) == (ptrdiff_t)count, "with a value for each");
    if (room == 0) return;
    memset(out + 1, LENT, room - 1);
    must(nlroute_write(family, values, count, bytes, len, out + 1, room - 1) == NLROUTE_NO_ROOM, "-4 with a byte less");
    must(are_lent(out + 1, room - 1), "nothing is written then");
}

/* A rewriting without room for it, and the second one, which all later ones keep. */
static void again(size_t first) {
    memset(lent_end - first, LENT, first);
    ptrdiff_t less = first ? nlroute_rewrite(family, bytes, len, lent_end - first + 1, first - 1) : NLROUTE_NO_ROOM;
    must(less == NLROUTE_NO_ROOM, "-4 with a byte less");
    must(are_lent(lent_end - first, first), "nothing is written then");
    memcpy(odd_start, once, first);
    must(nlroute_count(family, odd_start, first) == nlroute_count(family, bytes, len), "a rewriting has as many values");
    ptrdiff_t second = rewritten(nlroute_rewrite, odd_start, first, twice);
    must(second == (ptrdiff_t)first, "a second rewriting is as long as the first");
    ptrdiff_t third = rewritten(nlroute_rewrite, twice, first, once);
    must(third == second && !memcmp(once, twice, first), "a third rewriting changes nothing");
    must(nlroute_is_canonical(family, twice, first), "a second rewriting is canonical");
}

/* The report of the list in digits: its status, and its last line. */
static void reported(ptrdiff_t answer, bool same) {
    static uint8_t out[ROOM];
    static const char digits[] = "0123456789abcdef";
    uint8_t *text = text_end - 2 * len, status = LENT;
    for (size_t i = 0; i < len; i++) text[2 * i] = digits[bytes[i] >> 4], text[2 * i + 1] = digits[bytes[i] & 15];
    ptrdiff_t lines = nlroute_report(family, text, 2 * len, out, sizeof out, &status);
    must(lines > 0 && out[lines - 1] == '\n', "a report of whole lines");
    must(status == (answer >= 0 ? 0 : answer == NLROUTE_HAS_FAULT ? 1 : 3), "a status as the answer");
    const char *last = same ? "\nsame\n" : "\nchanged\n";
    size_t size = strlen(last);
    must(status || ((size_t)lines > size && !memcmp(out + lines - size, last, size)), "whether anything changed");
}

int LLVMFuzzerTestOneInput(const uint8_t *data, size_t size) {
    if (size == 0 || size - 1 > MOST) return 0;
    family = (data[0] & 0x7F) % families;
    if (data[0] & 0x80) return any_values(data + 1, size - 1), 0;
    len = size - 1, bytes = memcpy(list_end - len, data + 1, len);
    uint8_t *odd = memcpy(odd_start + !((uintptr_t)bytes & 1), bytes, len);
    ptrdiff_t answer = rewritten(nlroute_rewrite, bytes, len, once);
    size_t written = answer < 0 ? 0 : (size_t)answer;
    must(rewritten(nlroute_rewrite, odd, len, twice) == answer, "the same answer at another address");
    must(!memcmp(once, twice, written), "the same bytes at another address");
    must(rewritten(nlroute_rewrite_streaming, bytes, len, twice) == answer, "the same answer value by value");
    must(!memcmp(once, twice, written), "the same bytes value by value");
    bool same = answer == (ptrdiff_t)len && !memcmp(once, bytes, len);
    must(nlroute_is_canonical(family, bytes, len) == same, "canonical exactly if rewriting changes nothing");
    must(!memcmp(bytes, data + 1, len), "a list is not written to");
    counts_and_faults(answer);
    valued(answer);
    reported(answer, same);
    if (answer >= 0) again(written);
    return 0;
}
