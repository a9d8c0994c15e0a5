/*
 * What nlroute_requests.h says of nlroute_request(), for libFuzzer. If the highest bit of the first byte is set, the input
 * is a message, whose values, also those of the lists in it, are written again; otherwise it describes values, most of
 * which a list can have. The three bits below count changes of single fields, of four bytes each, which come first.
 * run.sh builds and runs it.
 *
 * - Each answer is one that the header has, and *at is what it says.
 * - Nothing is written on refusal, nor behind a request; a byte less is NLROUTE_NO_ROOM.
 * - What is written is a message of this head, and its values, also those in lists of other sets, are those passed.
 * - Attributes of the message are marked, or have to name their form; others are not marked. IFLA_LINKINFO, IFLA_AF_SPEC and
 *   IFLA_PROTINFO are there once.
 * - A message of canonical lists is written as it is, unless it repeats such a list.
 *
 * Arguments end where a page begins that cannot be touched, as in ../fuzz.c.
 */
#include "nlroute_requests.h"

#include <stdio.h>
#include <stdlib.h>
#include <sys/mman.h>

enum { PAGE = 1 << 12, ROOM = 1 << 22, LENT = 0xA5, VALUES = 512, LEVELS = 8, PROTINFO = 12, NESTED = 1 << 15 };

/* A list that values are in: a set, or the elements of a list of it. */
struct level {
    uint32_t set;
    uint16_t list;
    bool has_elements;
};

static uint8_t *head_end, *values_end, *octets_end, *out_end, *at_end;
static struct nlroute_head head;
static struct nlroute_value values[VALUES + 1];
static size_t count, len, taken, list_length;
static const uint8_t *octets;
static bool fits, is_canonical;

static void must(bool holds, const char *what) {
    if (holds) return;
    fprintf(stderr, "not so: %s\n", what);
    abort();
}

static uint8_t *room_end(void) {
    uint8_t *room = mmap(NULL, ROOM + PAGE, PROT_READ | PROT_WRITE, MAP_PRIVATE | MAP_ANONYMOUS, -1, 0);
    must(room != MAP_FAILED && !mprotect(room + ROOM, PAGE, PROT_NONE), "there is room");
    return room + ROOM;
}

int LLVMFuzzerInitialize(int *argc, char ***argv) {
    (void)argc, (void)argv;
    head_end = room_end(), values_end = room_end(), octets_end = room_end(), out_end = room_end(), at_end = room_end();
    return 0;
}

static uint8_t byte(void) { return taken < len ? octets[taken++] : 0; }
static uint32_t word(void) {
    uint32_t low = byte();
    return low | (uint32_t)byte() << 8;
}

/* Adds a value. */
static void add(struct nlroute_value value, size_t depth) {
    fits = fits && count < VALUES;
    if (!fits) return;
    value.depth = (uint8_t)depth;
    values[count++] = value;
}

/* The value itself has its bytes, if they are few and at an odd place. */
static void take_in(struct nlroute_value *value) {
    bool has_bytes = value->form == NLROUTE_FORM_BYTES || value->form == NLROUTE_FORM_TEXT;
    if (!has_bytes || value->length > 16 || value->offset + value->length > len || value->offset / 4 % 2) return;
    memcpy(value->octets, octets + value->offset, value->length);
    value->offset = NLROUTE_INLINE;
}

/* Whether values with this row have to name their form: only these need no mark in the message. */
static bool names_form(const struct nlroute_row *row) {
    return row->form == NLROUTE_FORM_TEXT || row->form == NLROUTE_FORM_HELD || row->form == NLROUTE_FORM_UNKNOWN
        || (row->form == NLROUTE_FORM_BYTES && !row->width);
}

/* The row of an attribute of the message. */
static struct nlroute_row row_of(uint16_t kind) {
    struct nlroute_row row = {0};
    must(!nlroute_read_row(NLROUTE_LINK, kind, 0, 0, &row), "an attribute has a row");
    return row;
}

static bool is_placed(const struct nlroute_value *it) {
    const struct nlroute_row row = row_of(it->kind);
    return it->inner == NLROUTE_OF_MESSAGE || names_form(&row);
}

/* The index of the first second list of a type of which a message has one, or the number of values. */
static size_t repeated(void) {
    bool has_linkinfo = false, has_spec = false, has_protinfo = false;
    for (size_t i = 0; i < count; i++) {
        bool *has = values[i].kind == NLROUTE_IFLA_LINKINFO ? &has_linkinfo
            : values[i].kind == NLROUTE_IFLA_AF_SPEC ? &has_spec : values[i].kind == PROTINFO ? &has_protinfo : NULL;
        if (!has || values[i].depth) continue;
        if (*has) return i;
        *has = true;
    }
    return count;
}

static bool is_protinfo(uint32_t set, const struct nlroute_value *it) {
    return set == NLROUTE_LINK && head.address_family == 7 && it->depth == 0 && it->kind == PROTINFO
        && it->form == NLROUTE_FORM_UNKNOWN && it->flags == NESTED;
}

/* Adds the values of a list at an offset of the octets, and those of the lists in it. */
static void flatten(uint32_t set, size_t from, size_t size, size_t depth) {
    const uint8_t *list = octets + from;
    ptrdiff_t places = nlroute_places(set, list, size);
    fits = fits && places >= 0 && places <= VALUES && depth < LEVELS;
    is_canonical = is_canonical && nlroute_is_canonical(set, list, size);
    if (!fits) return;
    struct nlroute_value *found = malloc((size_t)places * sizeof *found + 1);
    must(found && nlroute_values(set, list, size, found, (size_t)places) == places, "all values");
    for (size_t i = 0; i < (size_t)places && fits; i++) {
        struct nlroute_value it = found[i];
        bool holds = it.form == NLROUTE_FORM_HELD || is_protinfo(set, &it);
        ptrdiff_t inner = holds ? nlroute_opens(set, head.address_family, &it, list, size) : -1;
        size_t start = from + (size_t)it.offset;
        it.offset += from;
        bool opens = inner >= 0 && nlroute_count((uint32_t)inner, octets + start, it.length) > 0;
        if (opens) it.form = NLROUTE_FORM_HELD, it.flags = 0, it.offset = NLROUTE_INLINE;
        take_in(&it);
        /* Attributes of the message are marked; of those that need no mark, every other one. */
        if (depth == 0 && it.depth == 0 && !(is_placed(&it) && it.offset % 8 < 4)) it = nlroute_of_message(it);
        add(it, depth + it.depth);
        if (opens) flatten((uint32_t)inner, start, it.length, depth + found[i].depth + 1);
    }
    free(found);
}

/* The head and the values of a message. Returns whether it is one about a link whose lists decode. */
static bool of_message(void) {
    struct nlroute_message it;
    if (nlroute_read_message(octets, len, 0, &it) || !it.is_link) return false;
    head = nlroute_make_head(it.type, it.flags, it.index);
    head.sequence = it.sequence, head.port = it.port, head.address_family = it.address_family;
    head.link_type = it.link_type, head.link_flags = it.link_flags, head.change = it.change;
    flatten(NLROUTE_LINK, (size_t)it.list, (size_t)it.length, 0);
    list_length = (size_t)it.length;
    return fits;
}

/* One of these, or any. */
static uint32_t one_of(const uint32_t *them, size_t size) {
    uint8_t which = byte();
    return which < 240 ? them[which % size] : word() * 0x10001u;
}

static const char *const words[] = {
    "bond", "bridge", "vlan", "can", "hsr", "vxlan", "geneve", "vrf", "ipvlan", "ipvtap", "macvlan", "macvtap", "netkit", "veth",
    "vxcan", "tun", "dsa", "dummy", "bond_slave", "bridge_slave", "v0", ".", "..", "", "a:b", "a/b", "a b", "fifteen-bytes-x",
    "sixteen-bytes-xx", "seventeen-bytes-x"};

/* The kind of an IFLA_LINKINFO, and the set of its data. */
static const char *told(struct level *to, bool is_port) {
    const char *kind = words[byte() % (sizeof words / sizeof *words)];
    ptrdiff_t set = is_port ? nlroute_from_port_kind(kind, strlen(kind)) : nlroute_from_info_kind(kind, strlen(kind));
    *to = (struct level){set < 0 ? byte() % 25 : (uint32_t)set, 0, false};
    return kind;
}

/* A value of the list at hand, with the form that it has there, or none. Most of the message are marked that have to be. */
static struct nlroute_value fitting(const struct level *in, struct nlroute_row *row) {
    uint16_t kind = byte() % 80;
    struct nlroute_value it = nlroute_number(in->has_elements ? in->list : kind, 0);
    it.inner = in->has_elements ? kind : 0;
    if (nlroute_read_row(in->set, it.kind, it.inner, in->has_elements, row)) row->form = 0, row->is_list = 0, row->width = 0;
    it.form = row->form, it.number = byte() % 4 ? byte() & 1 : word(), it.second = byte() % 2;
    bool is_struct = row->width > 8 || (row->form == NLROUTE_FORM_BYTES && row->width);
    it.offset = row->width > 8 ? byte() : taken, it.length = is_struct ? row->width : byte() % 32;
    memcpy(it.octets, octets + (taken + 16 < len ? taken : 0), len < 16 ? len : 16);
    if (row->form <= NLROUTE_FORM_BERR_COUNTER) it.offset = 0, it.length = 0;
    if (row->form == NLROUTE_FORM_HELD) it.offset = NLROUTE_INLINE;
    take_in(&it);
    uint8_t how = byte();
    if (how % 4 == 1) it.form = NLROUTE_FORM_OF_KIND;
    bool is_of_message = in->set == NLROUTE_LINK && !in->has_elements;
    return is_of_message && (how & 64 || !names_form(row)) && how < 240 ? nlroute_of_message(it) : it;
}

/* The head and the values that the octets describe. */
static void of_description(void) {
    static const uint32_t types[] = {16, 16, 17, 18, 19, 108, 109}, flags[] = {0x604, 4, 0, 0x300, 0xE04};
    static const uint32_t indices[] = {3, 3, 0, ~0u}, sets[] = {0, 0, 7};
    struct level levels[LEVELS] = {{NLROUTE_LINK, 0, false}}, data = {0};
    head = nlroute_make_head((uint16_t)one_of(types, 7), (uint16_t)one_of(flags, 5), (int32_t)one_of(indices, 4));
    head.address_family = (uint8_t)one_of(sets, 3), head.sequence = word(), head.port = word(), head.change = word();
    for (size_t depth = 0; taken < len && fits;) {
        struct level *in = &levels[depth], next = {in->set, 0, false};
        struct nlroute_value it;
        struct nlroute_row row = {0};
        switch (byte() % 8) {
        case 0: it = nlroute_name(words[byte() % (sizeof words / sizeof *words)]); break;
        case 1: it = nlroute_linkinfo(), next = (struct level){in->set, it.kind, true}; break;
        case 2: it = nlroute_info_kind(told(&data, false)); break;
        case 3: it = nlroute_port_kind(told(&data, true)); break;
        case 4: it = byte() % 2 ? nlroute_info_data() : nlroute_port_data(), next = data; break;
        case 5: it = byte() % 2 ? nlroute_af_spec() : nlroute_protinfo();
            next.set = head.address_family == 7 ? NLROUTE_AF_SPEC_BRIDGE : NLROUTE_AF_SPEC;
            if (it.kind == PROTINFO) next.set = NLROUTE_BRIDGE_PORT;
            break;
        case 6: depth -= depth > 0; continue;
        default: it = fitting(in, &row);
            next = (struct level){row.form == NLROUTE_FORM_HELD ? byte() % 25 : in->set, it.kind, row.is_list};
        }
        bool opens = it.form == NLROUTE_FORM_HELD || row.is_list || next.has_elements;
        add(it, depth);
        if (opens && depth + 1 < LEVELS) levels[++depth] = next;
    }
}

/* Changes a field of a value, if there are any, or of the head. */
static void change(const uint8_t *how) {
    uint32_t to = how[2] | (uint32_t)how[3] << 8;
    struct nlroute_value *it = &values[count ? how[0] % count : 0];
    switch (how[1] % 19) {
    case 0: it->kind = (uint16_t)to; break;
    case 1: it->inner = (uint16_t)to; break;
    case 2: it->flags = (uint16_t)to; break;
    case 3: case 4: it->form = (uint8_t)(to % 24); break;
    case 5: case 6: it->depth = (uint8_t)to; break;
    case 7: it->second = to; break;
    case 8: it->length = to; break;
    case 9: it->number = to; break;
    case 10: it->offset = NLROUTE_INLINE; break;
    case 11: it->offset = to % (len + 2); break;
    case 12: it->octets[to % 16] = (uint8_t)(to >> 8); break;
    case 13: head.type = (uint16_t)to; break;
    case 14: head.index = (int32_t)to - 8; break;
    case 15: it->number = ~(uint64_t)to; break;
    case 16: it->inner = NLROUTE_OF_MESSAGE; break;
    case 17: it->inner = 0; break;
    default: *it = values[count ? to % count : 0]; break;
    }
}

/* What a value is written from, if that is bytes. */
static const uint8_t *passed(const struct nlroute_value *it) {
    return it->offset == NLROUTE_INLINE ? it->octets : octets + it->offset;
}

/* A value that was read, beside the one that it was written for. */
static void same(uint32_t set, const struct nlroute_value *it, const struct nlroute_value *of, const uint8_t *list) {
    struct nlroute_row row;
    uint8_t form = is_protinfo(set, it) && of->form == NLROUTE_FORM_HELD ? NLROUTE_FORM_HELD : it->form;
    /* Addresses and numbers of arrays have the index that follows from their order; their row is that of any index. */
    bool has_index = it->depth && !nlroute_read_row(set, it->kind, 0x3FFF, 1, &row) && row.form != NLROUTE_FORM_UNKNOWN;
    must(it->kind == of->kind && (has_index || !it->depth || it->inner == of->inner), "a value has its type");
    must(form == of->form || of->form == NLROUTE_FORM_OF_KIND, "and its form");
    bool has_number = (form >= NLROUTE_FORM_BOOL && form <= NLROUTE_FORM_MASKED)
        || (form >= NLROUTE_FORM_BRIDGE_ID && form <= NLROUTE_FORM_BERR_COUNTER);
    must(!has_number || it->number == of->number, "and its number");
    bool has_second = form == NLROUTE_FORM_MASKED || (form >= NLROUTE_FORM_VLAN_INFO && form <= NLROUTE_FORM_BERR_COUNTER);
    must(!has_second || it->second == of->second, "and its second number");
    size_t size = form == NLROUTE_FORM_MAC || form == NLROUTE_FORM_BRIDGE_ID ? 6
        : form == NLROUTE_FORM_IPV4 ? 4 : form == NLROUTE_FORM_IPV6 ? 16 : 0;
    must(!memcmp(it->octets, of->octets, size), "and its octets");
    bool has_bytes = form == NLROUTE_FORM_BITTIMING || form == NLROUTE_FORM_BYTES || form >= NLROUTE_FORM_UNKNOWN;
    if (!has_bytes || (form == NLROUTE_FORM_HELD && of->offset == NLROUTE_INLINE)) return;
    must(it->length == of->length && !memcmp(list + it->offset, passed(of), it->length), "and its bytes");
    must(form != NLROUTE_FORM_UNKNOWN || it->flags == of->flags, "and its flags");
}

/* A name that Linux takes, of the length without its NUL. */
static bool is_name(const uint8_t *name, size_t size, size_t room, bool is_kind) {
    if (size > 0 && name[size - 1] == 0) size--;
    if (size == 0 || size >= room || memchr(name, 0, size)) return false;
    if (is_kind) return true;
    for (size_t i = 0; i < size; i++)
        if (strchr("/:\t\n\v\f\r \xA0", name[i])) return false;
    return !(name[0] == '.' && (size == 1 || (size == 2 && name[1] == '.')));
}

/* Names of links and kinds, in the set NLROUTE_LINK. Others are allowed any bytes. */
static bool has_name(uint32_t set, const struct nlroute_value *it, const uint8_t *bytes) {
    bool is_kind = it->depth == 1 && it->kind == NLROUTE_IFLA_LINKINFO && (it->inner == 1 || it->inner == 4);
    if (set != NLROUTE_LINK || (!is_kind && (it->depth || it->kind != NLROUTE_IFLA_IFNAME))) return true;
    return is_name(bytes, it->length, is_kind ? 56 : 16, is_kind);
}

/* The values of a list that was written, beside those from number `i` on. Returns the number of the next. */
static size_t compared(uint32_t set, const uint8_t *list, size_t size, size_t i, size_t depth) {
    ptrdiff_t places = nlroute_places(set, list, size);
    must(places >= 0, "what is written is a list");
    struct nlroute_value *found = malloc((size_t)places * sizeof *found + 1);
    must(found && nlroute_values(set, list, size, found, (size_t)places) == places, "all values");
    for (size_t k = 0; k < (size_t)places; k++, i++) {
        must(i < count && values[i].depth == depth + found[k].depth, "as many values as were passed");
        same(set, &found[k], &values[i], list);
        must(has_name(set, &found[k], list + found[k].offset), "Linux takes the name");
        bool is_marked = values[i].inner == NLROUTE_OF_MESSAGE && !found[k].depth;
        must(set == NLROUTE_LINK ? found[k].depth || is_placed(&values[i]) : !is_marked, "those of the message have the mark");
        if (values[i].form != NLROUTE_FORM_HELD || values[i].offset != NLROUTE_INLINE) continue;
        ptrdiff_t inner = nlroute_opens(set, head.address_family, &found[k], list, size);
        must(inner >= 0, "a set reads the list");
        i = compared((uint32_t)inner, list + found[k].offset, found[k].length, i + 1, values[i].depth + 1u) - 1;
    }
    free(found);
    return i;
}

/* What was written: a message of the head, with the values. */
static void read_back(const uint8_t *out, size_t size) {
    struct nlroute_message it;
    must(nlroute_read_message(out, size, 0, &it) == 0 && it.len == size && it.next == size, "a request is one message");
    must(it.type == head.type && it.flags == (head.flags | 1), "of the type and the flags of the head");
    must(it.sequence == head.sequence && it.port == head.port, "and of its numbers");
    must(it.is_link && it.index == head.index && it.link_flags == head.link_flags && it.change == head.change, "of this link");
    must(it.link_type == head.link_type && it.address_family == head.address_family, "and its type");
    must(repeated() == count, "no list of the message is repeated");
    must(compared(NLROUTE_LINK, out + 32, size - 32, 0, 0) == count, "all values are written");
}

/* What the answer of a head is. */
static ptrdiff_t of_head(void) {
    bool is_any = (head.type >= 16 && head.type <= 19) || head.type == 108 || head.type == 109;
    if (!is_any) return NLROUTE_BAD_TYPE;
    bool is_free = head.type == 18 || (head.type == 16 && head.flags & 0x400);
    return is_free || head.index > 0 ? 0 : NLROUTE_NO_INDEX;
}

/* Whether a value has bytes: those of its own, or of the octets. */
static bool has_bytes(const struct nlroute_value *it) {
    return it->offset == NLROUTE_INLINE ? it->length <= 16 : it->length <= len && it->offset <= len - it->length;
}

/* Whether a value is a list of another set that has bytes and values, or neither. */
static bool is_held_wrongly(size_t at) {
    bool is_followed = at + 1 < count && values[at + 1].depth > values[at].depth;
    return values[at].form == NLROUTE_FORM_HELD && (values[at].offset == NLROUTE_INLINE) != is_followed;
}

/* An attribute of the message at fault, which is not a second list. nlroute_measure() has the same error, once it is placed. */
static void attribute_at_fault(ptrdiff_t answer, size_t at) {
    struct nlroute_value it = values[at];
    const struct nlroute_row row = row_of(it.kind);
    bool is_list = it.kind == PROTINFO && head.address_family == 7 && it.form == NLROUTE_FORM_HELD;
    size_t none;
    must(answer != NLROUTE_BAD_ELEMENT, "an attribute is no element");
    must(is_placed(&it) || answer == NLROUTE_BAD_DEPTH, "a mark is missing");
    if (!is_placed(&it)) return;
    bool has_form = is_list || it.form == row.form || (it.form == NLROUTE_FORM_OF_KIND && !names_form(&row));
    must((answer == NLROUTE_BAD_FORM) == !has_form, "a bad form is the first error of a value in its place");
    if (!has_form) return;
    bool is_held = is_list || row.form == NLROUTE_FORM_HELD;
    must((answer == NLROUTE_BAD_DEPTH) == (is_held && is_held_wrongly(at)), "a list has bytes, or values follow");
    bool is_struct = row.form == NLROUTE_FORM_BYTES && row.width;
    bool has_wrong_bytes = !has_bytes(&it) || (is_struct && it.length != row.width);
    if (is_struct || row.form == NLROUTE_FORM_BYTES || row.form == NLROUTE_FORM_TEXT)
        must((answer == NLROUTE_BAD_OCTETS) == has_wrong_bytes, "bad octets");
    if (it.offset == NLROUTE_INLINE || is_list) return;
    ptrdiff_t alone = nlroute_measure(NLROUTE_LINK, &it, 1, octets, len, &none);
    if (answer == NLROUTE_BAD_NUMBER || alone == NLROUTE_BAD_NUMBER) must(alone == answer, "a bad number");
}

/* A value at fault. */
static void at_fault(ptrdiff_t answer, size_t at) {
    struct nlroute_value it = values[at];
    must(at <= repeated() && (answer == NLROUTE_REPEATED) == (at == repeated()), "a repeated list");
    if (answer == NLROUTE_REPEATED) return;
    bool is_inline = it.form == NLROUTE_FORM_HELD && it.offset == NLROUTE_INLINE;
    must(answer != NLROUTE_NO_SET || (is_inline && !is_held_wrongly(at)), "no set for a list");
    bool is_any = it.form == NLROUTE_FORM_TEXT || it.form == NLROUTE_FORM_HELD;
    must(answer != NLROUTE_BAD_OCTETS || !is_any || (!is_inline && !has_bytes(&it)), "bad octets");
    if (answer == NLROUTE_BAD_NAME) must(has_bytes(&it) && it.depth < 2, "a name is there");
    if (answer == NLROUTE_BAD_NAME) must(!has_name(NLROUTE_LINK, &it, passed(&it)), "Linux rejects the name");
    size_t before = at ? values[at - 1].depth : 0;
    bool is_too_deep = at ? it.depth > before + 1 : it.depth > 0;
    must(!is_too_deep || answer == NLROUTE_BAD_DEPTH, "a depth that no list has");
    if (!it.depth) return attribute_at_fault(answer, at);
    bool is_deeper = it.depth > before, is_marked = it.inner == NLROUTE_OF_MESSAGE;
    if (answer == NLROUTE_BAD_DEPTH) must(is_deeper || is_marked || is_held_wrongly(at), "a bad depth");
}

static ptrdiff_t called(size_t room, size_t *at) {
    struct nlroute_head *it = (struct nlroute_head *)(void *)head_end - 1;
    struct nlroute_value *them = (struct nlroute_value *)(void *)values_end - count;
    size_t *told_at = (size_t *)(void *)at_end - 1;
    memcpy(it, &head, sizeof head), memcpy(them, values, count * sizeof *them);
    *told_at = *at, memset(out_end - room - 4, LENT, room + 4);
    ptrdiff_t answer = nlroute_request(it, them, count, octets, len, out_end - room, room, told_at);
    must(!memcmp(it, &head, sizeof head) && !memcmp(them, values, count * sizeof *them), "arguments are not written to");
    size_t written = answer < 0 ? 0 : (size_t)answer;
    must(written <= room && answer >= NLROUTE_REPEATED, "a length, or a refusal");
    for (size_t i = written; i < room; i++) must(out_end[i - room] == LENT, "nothing is written but a request");
    for (size_t i = 1; i <= 4; i++) must(out_end[-(ptrdiff_t)(room + i)] == LENT, "nothing is written before the buffer");
    *at = *told_at;
    return answer;
}

/* Calls without room, with as much as a request needs, with a byte less, and with more. */
static ptrdiff_t request(size_t more) {
    static const size_t left = 0x123456789;
    size_t size = left, at = left;
    ptrdiff_t answer = called(0, &size);
    if (answer != NLROUTE_NO_ROOM) {
        must(answer == of_head() || !of_head(), "the answer of a head");
        must(called(PAGE + more, &at) == answer && at == size, "the same answer with room");
        must(of_head() ? at == count : at < count, "*at is the index of a value, or their number");
        bool is_of_value = answer == NLROUTE_TOO_LONG || (answer <= NLROUTE_BAD_NAME && answer >= NLROUTE_REPEATED)
            || (answer <= NLROUTE_BAD_FORM && answer >= NLROUTE_BAD_OCTETS);
        must(of_head() || is_of_value, "a refusal of a value");
        if (!of_head()) at_fault(answer, at);
        return answer;
    }
    must(!of_head() && size >= 32 && size % 4 == 0 && size < ROOM / 2, "a length of a request");
    must(called(size - 1, &at) == NLROUTE_NO_ROOM && at == size, "-4 with a byte less");
    at = left;
    must(called(size + more, &at) == (ptrdiff_t)size && at == left, "a request, with more room");
    must(called(size, &at) == (ptrdiff_t)size && at == left, "a request, and *at is left");
    read_back(out_end - size, size);
    return (ptrdiff_t)size;
}

int LLVMFuzzerTestOneInput(const uint8_t *data, size_t size) {
    size_t changes = size ? data[0] >> 4 & 7 : 0;
    if (size <= 4 * changes + 1 || size > ROOM / 32) return 0;
    len = size - 4 * changes - 1, count = taken = 0, fits = is_canonical = true;
    octets = memcpy(octets_end - len, data + 4 * changes + 1, len);
    bool is_message = data[0] >> 7;
    if (is_message) fits = of_message();
    else of_description();
    if (!fits) return 0;
    memset(&values[count], 0, sizeof *values);
    for (size_t i = 0; i < changes; i++) change(data + 1 + 4 * i);
    ptrdiff_t answer = request(data[0] & 15);
    must(!memcmp(octets, data + 4 * changes + 1, len), "octets are not written to");
    if (!is_message || changes) return 0;
    bool is_due = answer == of_head() || answer == NLROUTE_BAD_NAME || answer == NLROUTE_TOO_LONG || answer == NLROUTE_REPEATED;
    must(answer >= 0 || is_due, "values are written");
    if (answer < 0 || !is_canonical) return 0;
    must((size_t)answer == 32 + list_length, "canonical lists keep their length");
    must(!memcmp(octets + 32, out_end - answer + 32, list_length), "canonical lists are written as they are");
    return 0;
}
