/*
 * Calls the functions of nlroute.h and nlroute_requests.h while allocations fail, and with buffers that are a little too
 * short. Standard input has one list per line: the number of an attribute set, a space, and hex digits. Lines that begin
 * with # are ignored.
 *
 * For each list and function, the first allocation and all later ones fail, then the second and all later ones, and so
 * on. No function may allocate again after that, and those for counts, errors, values, writing, messages and requests
 * may not allocate at all. The linker options --wrap=malloc, --wrap=realloc and --wrap=free let this program count
 * allocations. It prints a line for each check that fails, and then the counts.
 */
#include "nlroute_requests.h"

#include <limits.h>
#include <stdbool.h>
#include <stdio.h>
#include <stdlib.h>
#include <string.h>

enum { MOST = 1 << 18, ROOM = 1 << 22, LENT = 0xA5 };

void *__real_realloc(void *old, size_t size);
void __real_free(void *block);

/* Allocations requested so far; how many of them, at most, succeed; how many failed; blocks that are not freed. */
static unsigned long requests, granted = ULONG_MAX, refused, held;

static bool is_refused(void) {
    requests++;
    bool is = requests > granted;
    refused += is;
    return is;
}

void *__wrap_realloc(void *old, size_t size) {
    void *block = is_refused() ? NULL : __real_realloc(old, size);
    held += old == NULL && block != NULL;
    return block;
}

void *__wrap_malloc(size_t size) { return __wrap_realloc(NULL, size); }

void __wrap_free(void *block) {
    held -= block != NULL;
    __real_free(block);
}

static _Alignas(uint64_t) uint8_t out[ROOM];
static uint8_t list[MOST], whole[ROOM];
static char text[2 * MOST + 64];
static uint32_t family;
static size_t len;
static unsigned long lists, refusals, shorts, failed;

static void check(bool holds, const char *call, const char *what, unsigned long n) {
    if (holds) return;
    printf("FAILED %s of set %u, %zu bytes: %s, at %lu\n", call, family, len, what, n);
    failed++;
}

static bool are_lent(size_t from, size_t to) {
    for (size_t i = from; i < to; i++)
        if (out[i] != LENT) return false;
    return true;
}

static size_t padded(void) { return (len + 3) / 4 * 4; }

/* Makes a call with this much room. Whatever is past the room, or past what is written, must stay LENT. */
typedef ptrdiff_t calling(size_t room);

static ptrdiff_t rewriting(size_t room) { return nlroute_rewrite(family, list, len, out, room); }
static ptrdiff_t into(size_t room) { return nlroute_rewrite_streaming(family, list, len, out, room); }
static ptrdiff_t counting(size_t room) { return (void)room, nlroute_count(family, list, len); }

/* Returns NLROUTE_ABSENT as 0, since it is no failure of the call. */
static ptrdiff_t telling(size_t room) {
    ptrdiff_t answer = nlroute_first_fault(family, list, len, (struct nlroute_fault *)(void *)out);
    return (void)room, answer == NLROUTE_ABSENT ? 0 : answer;
}

/* Stores the values, finds the first, measures all texts, asks for fields, and writes the values again. */
static ptrdiff_t valuing(size_t room) {
    static struct nlroute_value values[MOST / 2];
    static uint8_t again[MOST + 4];
    char words[64];
    size_t at = 0;
    ptrdiff_t count = nlroute_values(family, list, len, values, MOST / 2);
    if (count <= 0) return count;
    if (nlroute_places(family, list, len) != count) return NLROUTE_ABSENT;
    if (nlroute_find(family, list, len, values[0].kind, &(struct nlroute_value){0})) return NLROUTE_ABSENT;
    for (ptrdiff_t i = 0; i < count; i++) {
        ptrdiff_t named = nlroute_kind_name(family, &values[i], words, sizeof words);
        ptrdiff_t size = nlroute_text(family, &values[i], list, len, words, sizeof words);
        if (named < 0 || size < 0) return NLROUTE_ABSENT;
        ptrdiff_t told = nlroute_read_field(family, &values[i], 0, list, len, &(struct nlroute_field){0});
        if (told && told != NLROUTE_ABSENT) return NLROUTE_BAD_FORM;
    }
    ptrdiff_t measured = nlroute_measure(family, values, (size_t)count, list, len, &at);
    ptrdiff_t written = nlroute_write(family, values, (size_t)count, list, len, again, sizeof again);
    return (void)room, written == measured ? written : NLROUTE_ABSENT;
}

/* Stores what a request has for the list: its values, in an IFLA_LINKINFO if its set is that of a kind; or else its bytes. */
static size_t requested(struct nlroute_value *values) {
    char name[64];
    bool is_link = family == NLROUTE_LINK;
    ptrdiff_t size = nlroute_family_name(family, name, sizeof name);
    bool is_device = nlroute_from_info_kind(name, (size_t)size) == (ptrdiff_t)family;
    if (!is_device) name[strcspn(name, "_")] = 0;
    bool is_port = !is_device && nlroute_from_port_kind(name, strlen(name)) == (ptrdiff_t)family;
    ptrdiff_t count = is_link || is_device || is_port ? nlroute_values(family, list, len, values + 3, MOST / 2) : 0;
    if (count <= 0) return values[0] = nlroute_passed(NLROUTE_IFLA_AF_SPEC, NLROUTE_FORM_HELD, 0, (uint32_t)len), 1;
    for (size_t i = 3; i < (size_t)count + 3; i++) {
        if (!is_link) values[i].depth += 2;
        else if (!values[i].depth) values[i] = nlroute_of_message(values[i]);
    }
    if (is_link) return memmove(values, values + 3, (size_t)count * sizeof *values), (size_t)count;
    values[0] = nlroute_linkinfo();
    values[1] = is_device ? nlroute_info_kind(name) : nlroute_port_kind(name);
    values[2] = is_device ? nlroute_info_data() : nlroute_port_data();
    return (size_t)count + 3;
}

/* Writes a request, finds its message, and the lists that its attributes hold. */
static ptrdiff_t requesting(size_t room) {
    static struct nlroute_value values[MOST / 2 + 3], first;
    static uint8_t again[MOST + 64];
    size_t at = 0, count = requested(values);
    struct nlroute_head head = nlroute_create();
    struct nlroute_message it;
    struct nlroute_range held;
    ptrdiff_t size = nlroute_request(&head, values, count, list, len, again, sizeof again, &at);
    if (size < 0) return size;
    ptrdiff_t less = nlroute_request(&head, values, count, list, len, again, (size_t)size - 1, &at);
    if (less != NLROUTE_NO_ROOM) return NLROUTE_BAD_FORM;
    if (nlroute_read_message(again, (size_t)size, 0, &it) || (ptrdiff_t)it.next != size) return NLROUTE_ABSENT;
    if (nlroute_message_fault(again, (size_t)size, 0, &(struct nlroute_fault){0}) != NLROUTE_ABSENT) return NLROUTE_BAD_FORM;
    ptrdiff_t found = nlroute_held(again + it.list, it.length, it.address_family, count > 1 ? family : NLROUTE_AF_SPEC, &held);
    if (family != NLROUTE_LINK && (found || (count == 1 && held.length != len))) return NLROUTE_ABSENT;
    if (nlroute_find(NLROUTE_LINK, again + it.list, it.length, values[0].kind, &first)) return NLROUTE_ABSENT;
    ptrdiff_t set = nlroute_opens(NLROUTE_LINK, it.address_family, &first, again + it.list, it.length);
    return (void)room, set < NLROUTE_ABSENT ? set : size;
}

/* The status is stored after the longest possible output. */
static ptrdiff_t reporting(size_t room) {
    return nlroute_report(family, (const uint8_t *)text, 2 * len, out, room, &out[ROOM - 1]);
}

static const struct call {
    const char *name;
    calling *call;
    bool allocates, is_by_value;
} calls[] = {{"rewrite", rewriting, true, false}, {"rewrite_streaming", into, true, true},
             {"count", counting, false, false},   {"first_fault", telling, false, false},
             {"values and text", valuing, false, false}, {"request and message", requesting, false, false},
             {"report", reporting, true, false}};

/* Returns how many bytes a call with this result, or a failed one, may write, and some more to check. */
static size_t reach_of(ptrdiff_t answer) {
    return (answer > (ptrdiff_t)padded() ? (size_t)answer : padded()) + 64;
}

/* Makes a call with this much room, after which all but n allocations fail, in a buffer that is LENT up to `reach`. */
static ptrdiff_t called(const struct call *it, size_t room, unsigned long n, size_t reach) {
    memset(out, LENT, reach), out[ROOM - 1] = LENT;
    requests = refused = held = 0, granted = n;
    ptrdiff_t answer = it->call(room);
    granted = ULONG_MAX;
    check(held == 0, it->name, "a block is kept", n);
    return answer;
}

/* Makes all allocations after the first n fail. Returns whether one did; if not, the result must be the usual one. */
static bool refuse(const struct call *it, unsigned long n, ptrdiff_t answer) {
    size_t reach = reach_of(answer), from = it->is_by_value ? padded() : 0;
    ptrdiff_t answered = called(it, ROOM / 2, n, reach);
    refusals += refused != 0;
    if (refused == 0) {
        bool is_same = answered == answer && !memcmp(out, whole, reach) && out[ROOM - 1] == whole[ROOM - 1];
        check(is_same, it->name, "another answer than with memory", n);
        return false;
    }
    check(it->allocates, it->name, "an allocation", n);
    check(refused == 1, it->name, "an allocation after one that failed", n);
    check(answered == NLROUTE_NO_MEMORY, it->name, "not -3", n);
    check(are_lent(from, reach) && out[ROOM - 1] == LENT, it->name, "what was lent has changed", n);
    return true;
}

static void try_call(const struct call *it) {
    ptrdiff_t answer = called(it, ROOM / 2, ULONG_MAX, ROOM);
    check(answer >= NLROUTE_TOO_LONG, it->name, "no answer with memory", 0);
    memcpy(whole, out, reach_of(answer)), whole[ROOM - 1] = out[ROOM - 1];
    for (unsigned long n = 0; refuse(it, n, answer); n++) continue;
    if (answer <= 0 || !it->allocates) return;
    size_t need = it->is_by_value ? padded() : (size_t)answer;
    for (size_t by = 1; by <= 4 && by <= need; by++, shorts++) {
        check(called(it, need - by, ULONG_MAX, need + 64) == NLROUTE_NO_ROOM, it->name, "not -4 with less room", by);
        check(are_lent(0, need + 64) && out[ROOM - 1] == LENT, it->name, "something was written", by);
    }
}

static int value(char digit) { return digit <= '9' ? digit - '0' : digit - 'a' + 10; }

/* Parses the attribute set and the list of a line. Returns whether the line has one. */
static bool take(char *line) {
    char *digits;
    if (line[0] == '#' || strchr(line, ' ') == NULL) return false;
    family = (uint32_t)strtoul(line, &digits, 10);
    bool is_set = *digits++ == ' ' && nlroute_count(family, list, 0) == 0;
    size_t count = strcspn(digits, "\n");
    len = count / 2;
    if (!is_set || count % 2 || len > MOST || strspn(digits, "0123456789abcdef") != count) {
        check(false, "a line", "no list of a family", 0);
        return false;
    }
    memcpy(text, digits, count);
    for (size_t i = 0; i < len; i++) list[i] = (uint8_t)(value(digits[2 * i]) << 4 | value(digits[2 * i + 1]));
    return true;
}

int main(void) {
    static char line[2 * MOST + 64];
    while (fgets(line, sizeof line, stdin)) {
        if (!take(line)) continue;
        lists++;
        for (size_t i = 0; i < sizeof calls / sizeof calls[0]; i++) try_call(&calls[i]);
    }
    printf("%lu lists, %lu refusals, %lu short buffers\n", lists, refusals, shorts);
    return failed != 0 || lists == 0;
}
