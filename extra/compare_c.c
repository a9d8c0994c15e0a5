/*
 * Prints lists by the C API, for compare_c.py. Standard input has one list per line: the number of an attribute set, a space,
 * and hex digits. Below each it prints the first error, or a line for each value: its depth, its name, and its text. A line
 * `end` follows. Lists and arrays are allocated with their exact size, so that a sanitizer or valgrind sees what goes
 * beyond them.
 */
#include "nlroute.h"

#include <stdio.h>
#include <stdlib.h>
#include <string.h>

enum { MOST = 1 << 18 };

static uint8_t digit(char it) { return (uint8_t)(it <= '9' ? it - '0' : it - 'a' + 10); }

static void *room_for(size_t count, size_t size) {
    void *room = malloc(count ? count * size : 1);
    if (!room) exit(2);
    return room;
}

/* The flags of nla_type, by their bits, in the words of nlshow. */
static const char *const flags[4] = {"", " NLA_F_NET_BYTEORDER", " NLA_F_NESTED", " NLA_F_NET_BYTEORDER|NLA_F_NESTED"};

/* Prints the values, and checks that they are written as the list is re-encoded. */
static void print_values(uint32_t family, const uint8_t *list, size_t len, size_t count) {
    static uint8_t wanted[MOST + 4], out[MOST + 4];
    struct nlroute_value *values = (struct nlroute_value *)room_for(count, sizeof *values);
    char name[NLROUTE_TEXT_ROOM], *text = (char *)room_for(2 * MOST, 1);
    if (nlroute_values(family, list, len, values, count) != (ptrdiff_t)count) printf("another number of values\n");
    for (size_t i = 0; i < count; i++) {
        ptrdiff_t named = nlroute_kind_name(family, &values[i], name, sizeof name);
        ptrdiff_t size = nlroute_text(family, &values[i], list, len, text, 2 * MOST);
        if (named < 0 || size < 0 || (size_t)size != strlen(text)) printf("no text: %td %td\n", named, size);
        else printf("%d %s%s %s\n", values[i].depth, name, flags[values[i].flags >> 14], text);
    }
    ptrdiff_t expected = nlroute_rewrite(family, list, len, wanted, sizeof wanted);
    ptrdiff_t written = nlroute_write(family, values, count, list, len, out, sizeof out);
    if (written != expected || (written > 0 && memcmp(out, wanted, (size_t)written))) printf("other bytes are written\n");
    free(values), free(text);
}

static void print_list(uint32_t family, const uint8_t *list, size_t len) {
    struct nlroute_fault fault;
    char text[NLROUTE_TEXT_ROOM];
    ptrdiff_t code = nlroute_first_fault(family, list, len, &fault), count = nlroute_places(family, list, len);
    if (code == NLROUTE_ABSENT && count >= 0) print_values(family, list, len, (size_t)count);
    else if (code != 0 || count != NLROUTE_HAS_FAULT) printf("an error: %td, a count: %td\n", code, count);
    else if (nlroute_fault_text(family, &fault, text, sizeof text) < 0) printf("no text of an error\n");
    else printf("%s\n", text);
}

int main(void) {
    static char line[2 * MOST + 64];
    while (fgets(line, sizeof line, stdin)) {
        char *digits = strchr(line, ' ');
        if (!digits) return 2;
        size_t len = strcspn(++digits, "\n") / 2;
        uint8_t *list = (uint8_t *)room_for(len, 1);
        for (size_t i = 0; i < len; i++) list[i] = (uint8_t)(digit(digits[2 * i]) << 4 | digit(digits[2 * i + 1]));
        print_list((uint32_t)strtoul(line, NULL, 10), list, len);
        free(list);
        printf("end\n");
    }
    return 0;
}
