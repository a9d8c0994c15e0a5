/*
 * Checks which values nlroute_request() takes for attributes of the message. A value of another set, whose depth was
 * forgotten, is none: such values are made of each attribute type that the library knows, by each constructor that fits, and
 * read from lists. Those that are marked are attributes of the message. Prints a line `ok ..` for each check that succeeds,
 * with what was tried, and `FAILED ..` for each that fails.
 */
#include "nlroute_requests.h"

#include <stdio.h>

enum { TYPES = 1 << 14, MOST = 16, ROOM = 1024 };

/* The bytes that values refer to: a name, and what makes no list. Those of values that have their own are copied behind. */
enum { LENT = 64, OWN = 16 };
static uint8_t octets[LENT + 2 * OWN] = "eth7";

static int failed;

static void check(bool holds, const char *what) {
    printf("%s %s\n", holds ? "ok" : "FAILED", what);
    failed |= !holds;
}

/* Constructors, each with some contents. */
enum { NUMBER, FLAG, FLAGS, PAIR, BRIDGE_ID, ADDRESS, LENT_BYTES, PASSED, OCTETS, STRING, NAME, LIST, HELD_LIST, WAYS };
static const char *const ways[WAYS] = {"nlroute_number", "nlroute_number, a byte", "nlroute_flags", "nlroute_pair",
                                       "nlroute_bridge_id", "nlroute_address", "nlroute_lent", "nlroute_passed",
                                       "nlroute_octets", "nlroute_string", "nlroute_name_of", "nlroute_list",
                                       "nlroute_held_list"};
static const uint64_t numbers[] = {0, 1, 2, 4, 100, 0x8100, UINT8_MAX, UINT16_MAX, INT32_MAX, UINT32_MAX, UINT64_MAX};
static const uint32_t lengths[] = {0, 1, 2, 4, 5, 6, 8, 12, 16, 20, 28, 32, 48};

/* How many there are, and how many of the lengths are those of bytes that a value itself can have. */
enum { NUMBERS = sizeof numbers / sizeof *numbers, LENGTHS = sizeof lengths / sizeof *lengths, SHORT = 9 };

static size_t choices(int way) {
    if (way <= PAIR) return NUMBERS;
    if (way == OCTETS) return SHORT;
    return way == ADDRESS || way == LENT_BYTES || way == PASSED ? LENGTHS : 1;
}

/* Makes a value. `form` is that of its type. */
static struct nlroute_value made(int way, size_t choice, uint16_t kind, uint8_t form) {
    uint64_t number = numbers[choice % NUMBERS];
    uint32_t length = lengths[choice % LENGTHS];
    struct nlroute_value value = nlroute_number(kind, number);
    switch (way) {
    case FLAG: value.length = 1; return value;
    case FLAGS: return nlroute_flags(kind, (uint32_t)number, UINT32_MAX);
    case PAIR: return nlroute_pair(kind, (uint32_t)number, 1);
    case BRIDGE_ID: return nlroute_bridge_id(kind, 0x8000, octets);
    case ADDRESS: return nlroute_address(kind, octets, length);
    case LENT_BYTES: return nlroute_lent(kind, 0, length);
    case PASSED: return nlroute_passed(kind, form, 0, length);
    case OCTETS: return nlroute_octets(kind, octets, length);
    case STRING: return nlroute_string(kind, "eth7");
    case NAME: return nlroute_name_of(kind, "eth7");
    case LIST: return nlroute_list(kind);
    case HELD_LIST: return nlroute_held_list(kind);
    default: return value;
    }
}

/* The row of a type or element. Returns whether the set knows it. */
static bool is_known(uint32_t set, uint16_t kind, uint16_t inner, uint8_t depth, struct nlroute_row *row) {
    return !nlroute_read_row(set, kind, inner, depth, row) && row->form != NLROUTE_FORM_UNKNOWN;
}

/* Writes values as a list of their set; those that have bytes of their own, with these bytes among the octets. */
static ptrdiff_t write_list(uint32_t set, const struct nlroute_value *values, size_t count, uint8_t *out) {
    struct nlroute_value lent[MOST];
    for (size_t i = 0; i < count; i++) {
        lent[i] = values[i];
        if (values[i].offset != NLROUTE_INLINE) continue;
        lent[i].offset = LENT + i % 2 * OWN;
        memcpy(octets + lent[i].offset, values[i].octets, OWN);
    }
    return nlroute_write(set, lent, count, octets, sizeof octets, out, ROOM);
}

/* Where the values of a set belong in a request: what is before them, and their depth, which is 0 if there is no such place. */
struct home {
    struct nlroute_head head;
    struct nlroute_value before[3];
    size_t count;
    uint8_t depth;
};

static void put_before(struct home *it, const struct nlroute_value *values, size_t count) {
    memcpy(it->before, values, count * sizeof *values);
    it->count = count;
    it->depth = (uint8_t)(values[count - 1].depth + 1);
}

static struct home home_of(uint32_t set) {
    static const char *const kinds[] = {"bond", "bridge", "vlan", "can", "dsa", "hsr", "vxlan", "geneve", "vrf", "tun",
                                        "ipvlan", "macvlan", "netkit", "veth"};
    const struct nlroute_value spec = nlroute_af_spec(), info = nlroute_protinfo();
    const struct nlroute_value inet[] = {spec, nlroute_below(1, nlroute_held_list(NLROUTE_AF_INET))};
    const struct nlroute_value inet6[] = {spec, nlroute_below(1, nlroute_held_list(NLROUTE_AF_INET6))};
    const struct nlroute_value mctp[] = {spec, nlroute_below(1, nlroute_held_list(NLROUTE_AF_MCTP))};
    struct home it = {nlroute_change(3), {nlroute_list(0)}, 0, 0};
    for (size_t i = 0; i < sizeof kinds / sizeof *kinds; i++) {
        const struct nlroute_value device[] = {NLROUTE_DATA(kinds[i])}, port[] = {NLROUTE_PORT_DATA(kinds[i])};
        if (nlroute_from_info_kind(kinds[i], strlen(kinds[i])) == (ptrdiff_t)set) put_before(&it, NLROUTE_VALUES(device));
        if (nlroute_from_port_kind(kinds[i], strlen(kinds[i])) == (ptrdiff_t)set) put_before(&it, NLROUTE_VALUES(port));
    }
    switch (set) {
    case NLROUTE_AF_SPEC: put_before(&it, &spec, 1); break;
    case NLROUTE_INET: put_before(&it, NLROUTE_VALUES(inet)); break;
    case NLROUTE_INET6: put_before(&it, NLROUTE_VALUES(inet6)); break;
    case NLROUTE_MCTP: put_before(&it, NLROUTE_VALUES(mctp)); break;
    case NLROUTE_AF_SPEC_BRIDGE: put_before(&it, &spec, 1), it.head = nlroute_bridge_set(3); break;
    case NLROUTE_BRIDGE_PORT:
        if (!it.depth) put_before(&it, &info, 1), it.head = nlroute_bridge_set(3);
        break;
    default: break;
    }
    return it;
}

/* Bytes, such as those that values refer to. */
struct bytes {
    const uint8_t *at;
    size_t len;
};

/* What was tried of a set, and of all. */
struct tried {
    unsigned long types, elements, values, read, requests, right, bad;
    bool is_by[WAYS];
};
static unsigned long codes[32];

static void complain(uint32_t set, const struct nlroute_value *value, const char *way, const char *what, ptrdiff_t answer) {
    char name[NLROUTE_TEXT_ROOM], of[NLROUTE_TEXT_ROOM];
    nlroute_family_name(set, of, sizeof of);
    nlroute_kind_name(set, value, name, sizeof name);
    printf("FAILED %s: type %u, inner %u, depth %u, form %u (%s) of %s by %s: %td\n", what, value->kind, value->inner,
           value->depth, value->form, name, of, way, answer);
    failed = 1;
}

/* Passes values, the first of which has depth 0, alone and after the data of a bond: each time the first is refused. */
static void is_no_attribute(uint32_t set, const struct nlroute_value *values, size_t count, struct bytes of, const char *way,
                            struct tried *tried) {
    const struct nlroute_head heads[] = {nlroute_create(), nlroute_change(3), nlroute_bridge_set(3)};
    const struct nlroute_value interval = nlroute_number(NLROUTE_IFLA_BOND_MIIMON, 100);
    struct nlroute_value all[4 + MOST] = {NLROUTE_DATA("bond"), nlroute_below(2, interval)};
    uint8_t out[ROOM];
    memcpy(all + 4, values, count * sizeof *values);
    for (size_t i = 0; i < 6; i++) {
        size_t from = i % 2 ? 0 : 4, at = SIZE_MAX;
        ptrdiff_t answer = nlroute_request(&heads[i / 2], all + from, 4 - from + count, of.at, of.len, out, sizeof out, &at);
        bool is_refused = answer < NLROUTE_NO_FAMILY && answer >= NLROUTE_REPEATED;
        if (is_refused) codes[-answer]++;
        if (!is_refused || at != 4 - from) complain(set, values, way, "an attribute of the message", answer), tried->bad++;
        tried->requests++;
    }
}

/* Whether values with this row have to name their form. */
static bool names_form(const struct nlroute_row *row) {
    return row->form == NLROUTE_FORM_TEXT || row->form == NLROUTE_FORM_HELD || row->form == NLROUTE_FORM_UNKNOWN
        || (row->form == NLROUTE_FORM_BYTES && !row->width);
}

/*
 * Passes values of a set where they belong, and compares what is written with their list. If the first is marked there, it is
 * refused.
 */
static void is_at_home(uint32_t set, const struct nlroute_row *row, const struct nlroute_value *values, size_t count,
                       struct bytes of, struct bytes list, const char *way, struct tried *tried) {
    struct home home = home_of(set);
    if (!home.depth) return;
    struct nlroute_value all[4 + MOST];
    uint8_t out[ROOM];
    size_t at = SIZE_MAX, first = home.count, last = first + count - 1;
    memcpy(all, home.before, home.count * sizeof *all);
    for (size_t i = 0; i < count; i++) all[first + i] = nlroute_below(home.depth, values[i]);
    ptrdiff_t size = nlroute_request(&home.head, all, last + 1, of.at, of.len, out, sizeof out, &at);
    if (names_form(row) && values[count - 1].form == NLROUTE_FORM_OF_KIND) {
        if (size != NLROUTE_BAD_FORM || at != last) complain(set, values, way, "no form, and not refused", size), tried->bad++;
        return;
    }
    bool is_same = size > (ptrdiff_t)list.len && !memcmp(out + size - list.len, list.at, list.len);
    if (!is_same) complain(set, values, way, "refused where it belongs", size), tried->bad++;
    all[first].inner = NLROUTE_OF_MESSAGE;
    size = nlroute_request(&home.head, all, last + 1, of.at, of.len, out, sizeof out, &at);
    if (size != NLROUTE_BAD_DEPTH || at != first) complain(set, values, way, "marked, and not refused", size), tried->bad++;
    tried->right++;
}

/* Tries a value, or a list and an element, if its own set takes it: as it was made, and as it is read. */
static void try_values(uint32_t set, const struct nlroute_row *row, const struct nlroute_value *values, size_t count, int way,
                       struct tried *tried) {
    struct nlroute_value found[MOST], it[3] = {values[0], values[count - 1], nlroute_number(99, 0)};
    uint8_t list[ROOM];
    ptrdiff_t len = write_list(set, values, count, list);
    const struct bytes made_of = {octets, sizeof octets}, written = {list, len < 0 ? 0 : (size_t)len};
    bool is_held = way == HELD_LIST;
    if (is_held && row->form == NLROUTE_FORM_HELD) {
        /* Values of this list follow, here one of a type that no set knows. */
        it[1] = nlroute_below(1, nlroute_passed(99, NLROUTE_FORM_UNKNOWN, 0, 4));
    } else if (len < 0) {
        return;
    }
    tried->values++;
    tried->is_by[way] = true;
    is_no_attribute(set, it, is_held ? 2 : count, made_of, ways[way], tried);
    if (is_held) is_no_attribute(set, it, 1, made_of, ways[way], tried);
    if (count == 2) {
        /* An element without its list, with its own type, and with that of the list. */
        struct nlroute_value alone = values[1];
        alone.depth = 0;
        is_no_attribute(set, &alone, 1, made_of, ways[way], tried);
        alone.kind = alone.inner, alone.inner = 0;
        is_no_attribute(set, &alone, 1, made_of, ways[way], tried);
    }
    if (is_held) return;
    is_at_home(set, row, values, count, made_of, written, ways[way], tried);
    ptrdiff_t places = nlroute_values(set, list, written.len, found, MOST);
    if (places < 1) complain(set, values, ways[way], "what is written is not read", places), tried->bad++;
    if (places < 1) return;
    is_at_home(set, row, found, (size_t)places, written, written, "nlroute_values", tried);
    is_no_attribute(set, found, (size_t)places, written, "nlroute_values", tried);
    for (ptrdiff_t i = 0; i < places; i++, tried->read++) {
        found[i].depth = 0;
        is_no_attribute(set, &found[i], 1, written, "nlroute_values", tried);
    }
}

/* Tries the values of a type, or of an element of a list, by all constructors. Returns whether there were any. */
static bool try_type(uint32_t set, const struct nlroute_row *row, uint16_t kind, const uint16_t *inner, struct tried *tried) {
    unsigned long before = tried->values;
    for (int way = 0; way < WAYS; way++) {
        for (size_t choice = 0; choice < choices(way); choice++) {
            struct nlroute_value it = made(way, choice, inner ? *inner : kind, row->form);
            const struct nlroute_value with_list[] = {nlroute_list(kind), nlroute_element(kind, it)};
            try_values(set, row, inner ? with_list : &it, inner ? 2 : 1, way, tried);
        }
    }
    return tried->values > before;
}

/* Tries the elements of a list; of addresses and numbers, whose row is that of any index, the first and the last. */
static void try_elements(uint32_t set, uint16_t kind, struct tried *tried) {
    struct nlroute_row row;
    bool has_indices = is_known(set, kind, TYPES - 1, 1, &row);
    for (uint32_t i = 0; i < TYPES; i += has_indices ? TYPES - 1 : 1) {
        uint16_t inner = (uint16_t)i;
        if (!is_known(set, kind, inner, 1, &row)) continue;
        tried->elements++;
        if (!try_type(set, &row, kind, &inner, tried)) {
            const struct nlroute_value it = nlroute_element(kind, nlroute_number(inner, 0));
            complain(set, &it, "any", "no value of an element", 0), tried->bad++;
        }
    }
}

/* Tries all types of a set. */
static void try_set(uint32_t set, struct tried *tried) {
    struct nlroute_row row;
    for (uint32_t i = 0; i < TYPES; i++) {
        uint16_t kind = (uint16_t)i;
        if (!is_known(set, kind, 0, 0, &row)) continue;
        tried->types++;
        if (!try_type(set, &row, kind, NULL, tried)) {
            const struct nlroute_value it = nlroute_number(kind, 0);
            complain(set, &it, "any", "no value of a type", 0), tried->bad++;
        }
        if (row.is_list) try_elements(set, kind, tried);
    }
}

static void values_of_other_sets(void) {
    struct tried all = {0};
    uint32_t sets = 0, set = 0;
    char name[NLROUTE_TEXT_ROOM], text[2 * NLROUTE_TEXT_ROOM];
    for (; nlroute_family_name(set, name, sizeof name) > 0; set++) {
        struct tried tried = {0};
        if (set == NLROUTE_LINK) continue;
        try_set(set, &tried);
        bool has_home = home_of(set).depth > 0, is_none = set == NLROUTE_PROTO_BRIDGE || set == NLROUTE_REPLY;
        snprintf(text, sizeof text, "%s: %lu types, %lu elements, %lu values made, %lu read, %lu right; %lu requests are refused",
                 name, tried.types, tried.elements, tried.values, tried.read, tried.right, tried.requests);
        check(tried.types && tried.values && tried.read && !tried.bad, text);
        check(has_home != is_none && (tried.right > 0) == has_home, "a set has a place in requests, or is one of replies");
        sets++, all.types += tried.types, all.elements += tried.elements, all.values += tried.values, all.read += tried.read;
        all.requests += tried.requests, all.right += tried.right;
        for (int way = 0; way < WAYS; way++) all.is_by[way] |= tried.is_by[way];
    }
    for (int way = 0; way < WAYS; way++) check(all.is_by[way], ways[way]);
    snprintf(text, sizeof text, "%u sets: %lu types, %lu elements, %lu values made, %lu read, %lu right; %lu requests are refused",
             sets, all.types, all.elements, all.values, all.read, all.right, all.requests);
    check(sets == 24 && all.types > 150, text);
    for (int i = 0; i < 32; i++)
        if (codes[i]) printf("%lu times: %s\n", codes[i], nlroute_refusal_text(-i));
}

/* Types that their set does not know are refused if the message has them; they are written if it does not know them, either. */
static void unknown_types(void) {
    struct nlroute_row row, of_link;
    struct tried tried = {0};
    const struct nlroute_head head = nlroute_change(3);
    const struct bytes lent = {octets, sizeof octets};
    uint8_t out[ROOM];
    size_t at, right = 0, written = 0;
    for (uint32_t set = 0; !nlroute_read_row(set, 0, 0, 0, &row); set++) {
        for (uint16_t kind = 0; set != NLROUTE_LINK && kind < 100; kind++) {
            const struct nlroute_value it = nlroute_passed(kind, NLROUTE_FORM_UNKNOWN, 0, 4);
            if (is_known(set, kind, 0, 0, &row)) continue;
            bool is_of_link = is_known(NLROUTE_LINK, kind, 0, 0, &of_link);
            if (is_of_link) is_no_attribute(set, &it, 1, lent, "nlroute_passed", &tried);
            else written++, right += nlroute_request(&head, &it, 1, octets, sizeof octets, out, sizeof out, &at) == 40;
        }
    }
    check(tried.requests > 1000 && !tried.bad, "a type that the message knows is none that a set does not know");
    check(written > 0 && right == written, "types that no set knows need no mark");
}

/* What was tried of the message's own values. */
struct marked {
    unsigned long types, elements, values, unmarked, bad;
};

/* The result for a value of the message that is marked, if nlroute_write() writes so many bytes. The only name is "eth7". */
static ptrdiff_t due(const struct nlroute_row *row, const struct nlroute_value *value, ptrdiff_t len) {
    bool is_kind = value->depth && value->kind == NLROUTE_IFLA_LINKINFO && (value->inner == 1 || value->inner == 4);
    bool is_name = is_kind || (!value->depth && value->kind == NLROUTE_IFLA_IFNAME);
    if (names_form(row) && value->form == NLROUTE_FORM_OF_KIND) return NLROUTE_BAD_FORM;
    return is_name && (value->length < 1 || value->length > 5) ? NLROUTE_BAD_NAME : 32 + len;
}

/*
 * Passes an attribute of the message, or a list and an element, with the mark and without it. `row` is that of the attribute,
 * `own` that of what was made.
 */
static void try_marked(const struct nlroute_row *row, const struct nlroute_row *own, struct nlroute_value *values, size_t count,
                       const char *way, struct marked *tried) {
    const struct nlroute_head head = nlroute_change(3);
    uint8_t list[ROOM], out[ROOM];
    size_t at = SIZE_MAX, last = count - 1;
    ptrdiff_t len = write_list(NLROUTE_LINK, values, count, list);
    if (len < 0) return;
    ptrdiff_t wanted = due(own, &values[last], len);
    values[0] = nlroute_of_message(values[0]);
    ptrdiff_t size = nlroute_request(&head, values, count, octets, sizeof octets, out, sizeof out, &at);
    bool is_due = size == wanted && (size < 0 ? at == last : !memcmp(out + 32, list, (size_t)len));
    if (!is_due) complain(NLROUTE_LINK, &values[last], way, "a value that is marked", size), tried->bad++;
    tried->values += size > 0;
    values[0].inner = 0;
    size = nlroute_request(&head, values, count, octets, sizeof octets, out, sizeof out, &at);
    is_due = names_form(row) ? size == wanted : size == NLROUTE_BAD_DEPTH && at == 0;
    if (!is_due) complain(NLROUTE_LINK, &values[last], way, "one that is not", size), tried->bad++;
    tried->unmarked += size == NLROUTE_BAD_DEPTH;
}

/* Tries a type of the message, or an element of a list, by all constructors. Returns whether a value is written. */
static bool try_attribute(const struct nlroute_row *row, uint16_t kind, const struct nlroute_row *own, const uint16_t *inner,
                          struct marked *tried) {
    unsigned long before = tried->values;
    for (int way = 0; way < HELD_LIST; way++) {
        for (size_t choice = 0; choice < choices(way); choice++) {
            struct nlroute_value it = made(way, choice, inner ? *inner : kind, own->form);
            struct nlroute_value values[2] = {it, it};
            if (inner) values[0] = nlroute_list(kind), values[1] = nlroute_element(kind, it);
            try_marked(row, own, values, inner ? 2 : 1, ways[way], tried);
        }
    }
    return tried->values > before;
}

/* Values of the message are written as nlroute_write() writes them, if they are marked. */
static void attributes_of_the_message(void) {
    struct nlroute_row row, own, any;
    struct marked tried = {0};
    char text[NLROUTE_TEXT_ROOM];
    for (uint32_t i = 0; i < TYPES; i++) {
        uint16_t kind = (uint16_t)i;
        if (!is_known(NLROUTE_LINK, kind, 0, 0, &row)) continue;
        if (try_attribute(&row, kind, &row, NULL, &tried)) tried.types++;
        else tried.bad++;
        bool has_indices = is_known(NLROUTE_LINK, kind, TYPES - 1, 1, &any);
        for (uint32_t j = 0; row.is_list && j < (has_indices ? 1 : TYPES); j++) {
            uint16_t inner = (uint16_t)j;
            if (!is_known(NLROUTE_LINK, kind, inner, 1, &own)) continue;
            if (try_attribute(&row, kind, &own, &inner, &tried)) tried.elements++;
            else tried.bad++;
        }
    }
    snprintf(text, sizeof text, "link: %lu types, %lu elements; %lu values are written with the mark, %lu only with it",
             tried.types, tried.elements, tried.values, tried.unmarked);
    check(tried.types > 60 && tried.elements > 20 && tried.values > 500 && tried.unmarked > 300 && !tried.bad, text);
}

/* A request that was written, or its error. */
struct written {
    uint8_t bytes[ROOM];
    ptrdiff_t length;
    size_t at;
};

static struct written request(struct nlroute_head head, const struct nlroute_value *values, size_t count) {
    struct written it;
    memset(&it, 0, sizeof it);
    it.length = nlroute_request(&head, values, count, octets, sizeof octets, it.bytes, sizeof it.bytes, &it.at);
    return it;
}

static void refused(struct nlroute_head head, const struct nlroute_value *values, size_t count, ptrdiff_t code, size_t at,
                    const char *what) {
    struct written it = request(head, values, count);
    if (it.length != code || it.at != at) printf("%td at %zu\n", it.length, it.at);
    check(it.length == code && it.at == at, what);
}

static void forgotten_depths(void) {
    const struct nlroute_value delay = nlroute_number(NLROUTE_IFLA_BR_FORWARD_DELAY, 1000);
    const struct nlroute_value ageing = nlroute_number(NLROUTE_IFLA_BR_AGEING_TIME, 9000);
    const struct nlroute_value mode = nlroute_number(NLROUTE_IFLA_BOND_MODE, 4);
    const struct nlroute_value interval = nlroute_number(NLROUTE_IFLA_BOND_MIIMON, 100);
    const struct nlroute_value least = nlroute_number(NLROUTE_IFLA_BOND_MIN_LINKS, 1);
    const struct nlroute_value bridge[] = {NLROUTE_DATA("bridge"), nlroute_below(2, delay), ageing};
    refused(nlroute_create(), NLROUTE_VALUES(bridge), NLROUTE_BAD_DEPTH, 4, "the ageing time of a bridge is no MTU");
    const struct nlroute_value bond[] = {NLROUTE_DATA("bond"), interval};
    refused(nlroute_create(), NLROUTE_VALUES(bond), NLROUTE_BAD_DEPTH, 2, "the data of a bond without values");
    const struct nlroute_value named[] = {NLROUTE_DATA("bond"), nlroute_below(2, mode), interval};
    refused(nlroute_create(), NLROUTE_VALUES(named), NLROUTE_BAD_FORM, 4, "an interval is no name");
    const struct nlroute_value links[] = {NLROUTE_DATA("bond"), nlroute_below(2, mode), least};
    refused(nlroute_create(), NLROUTE_VALUES(links), NLROUTE_REPEATED, 4, "a number of links is no IFLA_LINKINFO");
    const struct nlroute_value shallow[] = {NLROUTE_DATA("bond"), nlroute_below(2, mode), nlroute_below(1, interval)};
    refused(nlroute_create(), NLROUTE_VALUES(shallow), NLROUTE_BAD_ELEMENT, 4, "an interval is in no IFLA_LINKINFO");
    const struct nlroute_value deep[] = {NLROUTE_DATA("bond"), nlroute_below(2, mode), nlroute_below(3, interval)};
    refused(nlroute_create(), NLROUTE_VALUES(deep), NLROUTE_BAD_DEPTH, 4, "nor in a number");
    const struct nlroute_value first = nlroute_below(1, nlroute_mtu(1400));
    refused(nlroute_create(), &first, 1, NLROUTE_BAD_DEPTH, 0, "the first value is of the message");
    const struct nlroute_value mtu[] = {NLROUTE_DATA("bond"), nlroute_below(2, mode), nlroute_below(2, nlroute_mtu(1400))};
    refused(nlroute_create(), NLROUTE_VALUES(mtu), NLROUTE_BAD_DEPTH, 4, "an MTU is no delay of a bond");
    const struct nlroute_value spec[] = {nlroute_af_spec(), nlroute_below(1, nlroute_of_message(nlroute_pair(2, 10, 6)))};
    refused(nlroute_bridge_set(3), NLROUTE_VALUES(spec), NLROUTE_BAD_DEPTH, 1, "nor is a VLAN of the message");
    const struct nlroute_value lent[] = {nlroute_of_message(nlroute_passed(NLROUTE_IFLA_AF_SPEC, NLROUTE_FORM_HELD, 0, 0)),
                                         nlroute_below(1, nlroute_pair(2, 10, 6))};
    refused(nlroute_bridge_set(3), NLROUTE_VALUES(lent), NLROUTE_BAD_DEPTH, 0, "a list has bytes, or values follow");
    const struct nlroute_value unmarked[] = {nlroute_list(NLROUTE_IFLA_LINKINFO), nlroute_info_kind("dummy")};
    refused(nlroute_create(), NLROUTE_VALUES(unmarked), NLROUTE_BAD_DEPTH, 0, "a list of the message is marked");
    const struct nlroute_value is_in_array[] = {
        NLROUTE_DATA("bond"), nlroute_below(2, nlroute_list(NLROUTE_IFLA_BOND_ARP_IP_TARGET)),
        nlroute_below(2, nlroute_element(NLROUTE_IFLA_BOND_ARP_IP_TARGET, nlroute_address(NLROUTE_OF_MESSAGE, octets, 4)))};
    check(request(nlroute_create(), NLROUTE_VALUES(is_in_array)).length == 60, "the index of an address is no mark");
}

static void repeated_lists(void) {
    const struct nlroute_value kinds[] = {NLROUTE_KIND("dummy"), nlroute_mtu(1400), NLROUTE_KIND("dummy")};
    refused(nlroute_create(), NLROUTE_VALUES(kinds), NLROUTE_REPEATED, 3, "a second IFLA_LINKINFO");
    const struct nlroute_value state = nlroute_below(2, nlroute_number(NLROUTE_IFLA_BRPORT_COST, 44));
    const struct nlroute_value port[] = {NLROUTE_DATA("bond"), nlroute_below(2, nlroute_number(NLROUTE_IFLA_BOND_MIIMON, 100)),
                                         NLROUTE_PORT_DATA("bridge"), state};
    refused(nlroute_change(3), NLROUTE_VALUES(port), NLROUTE_REPEATED, 4, "one of a port");
    const struct nlroute_value vlan = nlroute_below(1, nlroute_pair(NLROUTE_IFLA_BRIDGE_VLAN_INFO, 10, 6));
    const struct nlroute_value specs[] = {nlroute_af_spec(), vlan, nlroute_af_spec(), vlan};
    refused(nlroute_bridge_set(3), NLROUTE_VALUES(specs), NLROUTE_REPEATED, 2, "a second IFLA_AF_SPEC");
    const struct nlroute_value cost = nlroute_below(1, nlroute_number(NLROUTE_IFLA_BRPORT_COST, 44));
    const struct nlroute_value infos[] = {nlroute_protinfo(), cost, nlroute_af_spec(), vlan, nlroute_protinfo(), cost};
    refused(nlroute_bridge_set(3), NLROUTE_VALUES(infos), NLROUTE_REPEATED, 4, "a second IFLA_PROTINFO");
    const struct nlroute_value unknown = nlroute_passed(12, NLROUTE_FORM_UNKNOWN, 0, 4), bytes[] = {unknown, unknown};
    refused(nlroute_change(3), NLROUTE_VALUES(bytes), NLROUTE_REPEATED, 1, "one of bytes");
    const struct nlroute_value held = nlroute_passed(NLROUTE_IFLA_AF_SPEC, NLROUTE_FORM_HELD, 0, 0);
    const struct nlroute_value mixed[] = {nlroute_af_spec(), vlan, held};
    refused(nlroute_bridge_set(3), NLROUTE_VALUES(mixed), NLROUTE_REPEATED, 2, "a list of bytes after one of values");
    const struct nlroute_value before[] = {nlroute_mtu(UINT32_MAX), nlroute_number(NLROUTE_IFLA_MTU, 1), held, held};
    refused(nlroute_change(3), NLROUTE_VALUES(before), NLROUTE_BAD_DEPTH, 1, "the first value at fault");
    /* Others may be there twice, also types 12, 18 and 26 of deeper lists. */
    const struct nlroute_value twice[] = {
        nlroute_mtu(1400), nlroute_mtu(1500), NLROUTE_DATA("bond"),
        nlroute_below(2, nlroute_number(18, 1)), nlroute_below(2, nlroute_number(18, 2)),
        nlroute_below(2, nlroute_number(12, 1)), nlroute_below(2, nlroute_number(12, 2)),
        nlroute_below(2, nlroute_address(26, octets, 6)), nlroute_below(2, nlroute_address(26, octets, 6)),
    };
    check(request(nlroute_change(3), NLROUTE_VALUES(twice)).length > 0, "other types may be repeated");
}

/* A bond that is a port of a bridge: one IFLA_LINKINFO with both kinds and data. */
static void side_by_side(void) {
    const uint8_t wanted[] = {64, 0, 18, 0, 8,   0, 1, 0, 'b', 'o', 'n', 'd', 20,  0,   2,   0,   5, 0, 1,  0, 4, 0,
                              0,  0, 8,  0, 3,   0, 100, 0, 0, 0, 10,  0,   4,   0,   'b', 'r', 'i', 'd', 'g', 'e', 0, 0,
                              20, 0, 5,  0, 8,   0, 3, 0, 44,  0,   0,   0,   5,   0,   4,   0,   1, 0, 0,  0};
    const struct nlroute_value both[] = {
        NLROUTE_DATA("bond"),
        nlroute_below(2, nlroute_number(NLROUTE_IFLA_BOND_MODE, 4)),
        nlroute_below(2, nlroute_number(NLROUTE_IFLA_BOND_MIIMON, 100)),
        NLROUTE_AND_PORT_DATA("bridge"),
        nlroute_below(2, nlroute_number(NLROUTE_IFLA_BRPORT_COST, 44)),
        nlroute_below(2, nlroute_number(NLROUTE_IFLA_BRPORT_MODE, 1)),
    };
    struct written it = request(nlroute_create(), NLROUTE_VALUES(both));
    bool is_long = it.length == 32 + (ptrdiff_t)sizeof wanted;
    check(is_long && !memcmp(it.bytes + 32, wanted, sizeof wanted), "one IFLA_LINKINFO with both kinds and data");
    struct nlroute_value lengths_of_lists[sizeof both / sizeof *both];
    memcpy(lengths_of_lists, both, sizeof both);
    lengths_of_lists[0].length = 17, lengths_of_lists[2].length = 77, lengths_of_lists[6].length = UINT32_MAX;
    struct written same = request(nlroute_create(), NLROUTE_VALUES(lengths_of_lists));
    check(same.length == it.length && !memcmp(same.bytes, it.bytes, sizeof it.bytes), "lengths of lists do not matter");
    const struct nlroute_value kind[] = {NLROUTE_KIND("dummy"), NLROUTE_AND_PORT_DATA("bridge"), both[7]};
    check(request(nlroute_change(3), NLROUTE_VALUES(kind)).length == 32 + 4 + 12 + 12 + 12, "a port without data of its own");
}

/* A name of so many bytes, in a list of properties or as the name of a link. */
static struct written name_of_length(size_t length, bool is_other) {
    char name[20] = "0123456789abcdefgh";
    name[length] = 0;
    const struct nlroute_value other[] = {
        nlroute_of_message(nlroute_list(NLROUTE_IFLA_PROP_LIST)),
        nlroute_element(NLROUTE_IFLA_PROP_LIST, nlroute_name_of(NLROUTE_IFLA_ALT_IFNAME, name)),
    };
    const struct nlroute_value link[] = {nlroute_name(name)};
    return is_other ? request(nlroute_property(3), NLROUTE_VALUES(other)) : request(nlroute_change(3), NLROUTE_VALUES(link));
}

static void names(void) {
    struct written it = name_of_length(15, false);
    check(it.length == 52 && it.bytes[32] == 20 && !memcmp(it.bytes + 36, "0123456789abcde", 16), "a name of 15 bytes, with its NUL");
    for (size_t length = 16; length < 19; length++) {
        it = name_of_length(length, false);
        check(it.length == NLROUTE_BAD_NAME && it.at == 0, "a longer one is refused");
        it = name_of_length(length, true);
        check(it.length == NLROUTE_BAD_OCTETS && it.at == 1, "so is a longer alternative name");
    }
    it = name_of_length(15, true);
    check(it.length == 56 && it.bytes[36] == 20 && !memcmp(it.bytes + 40, "0123456789abcde", 16), "an alternative name likewise");
    const struct nlroute_value longest = nlroute_name_of(NLROUTE_IFLA_IFNAME, "0123456789abcdef");
    refused(nlroute_change(3), &longest, 1, NLROUTE_BAD_NAME, 0, "nlroute_name_of() of a name of 16 bytes");

    uint8_t lent[128], out[ROOM];
    memset(lent, 'n', sizeof lent - 1);
    lent[127] = 0;
    /* of 127 bytes, and of 16, which need padding, with their NUL */
    for (uint32_t i = 0; i < 2; i++) {
        uint32_t size = i ? 17 : 128;
        const struct nlroute_value other = nlroute_passed(NLROUTE_IFLA_ALT_IFNAME, NLROUTE_FORM_TEXT, 128 - size, size);
        const struct nlroute_value values[] = {
            nlroute_of_message(nlroute_list(NLROUTE_IFLA_PROP_LIST)),
            nlroute_element(NLROUTE_IFLA_PROP_LIST, other),
        };
        const struct nlroute_head head = nlroute_property(3);
        size_t at = 0;
        ptrdiff_t length = nlroute_request(&head, NLROUTE_VALUES(values), lent, sizeof lent, out, sizeof out, &at);
        bool is_long = length == 40 + (ptrdiff_t)(size + 3) / 4 * 4;
        check(is_long && !memcmp(out + 40, lent + 128 - size, size), "a long alternative name is lent");
    }
}

/* Structs of at most 16 bytes: those of the value itself are written as those that it refers to. */
static void structs(void) {
    static const struct {
        uint32_t set;
        uint16_t kind;
        uint32_t length;
    } rows[] = {
        {NLROUTE_VXLAN, NLROUTE_IFLA_VXLAN_PORT_RANGE, 4},
        {NLROUTE_VXLAN, NLROUTE_IFLA_VXLAN_RESERVED_BITS, 8},
        {NLROUTE_GENEVE, NLROUTE_IFLA_GENEVE_PORT_RANGE, 4},
        {NLROUTE_INET6, NLROUTE_IFLA_INET6_CACHEINFO, 16},
    };
    const uint8_t bytes[16] = {0x12, 0xB5, 0x12, 0xB6, 1, 2, 3, 4, 5, 6, 7, 8, 9, 10, 11, 12};
    memcpy(octets + LENT, bytes, sizeof bytes);
    for (size_t i = 0; i < sizeof rows / sizeof *rows; i++) {
        struct home home = home_of(rows[i].set);
        struct nlroute_value values[4];
        struct nlroute_value *last = values + home.count;
        memcpy(values, home.before, home.count * sizeof *values);
        *last = nlroute_below(home.depth, nlroute_octets(rows[i].kind, bytes, rows[i].length));
        struct written own = request(home.head, values, home.count + 1);
        *last = nlroute_below(home.depth, nlroute_lent(rows[i].kind, LENT, rows[i].length));
        struct written lent = request(home.head, values, home.count + 1);
        *last = nlroute_below(home.depth, nlroute_passed(rows[i].kind, NLROUTE_FORM_BYTES, LENT, rows[i].length));
        struct written named = request(home.head, values, home.count + 1);
        size_t length = rows[i].length;
        check(own.length > 0 && !memcmp(own.bytes + own.length - length, bytes, length), "a struct of the value itself");
        check(lent.length == own.length && !memcmp(lent.bytes, own.bytes, sizeof own.bytes), "the same struct among the octets");
        check(named.length == own.length && !memcmp(named.bytes, own.bytes, sizeof own.bytes), "likewise with its form");
        for (uint32_t other = 0; other < 18; other++) {
            *last = nlroute_below(home.depth, nlroute_octets(rows[i].kind, bytes, other));
            if (other == rows[i].length) continue;
            struct written it = request(home.head, values, home.count + 1);
            if (it.length != NLROUTE_BAD_OCTETS || it.at != home.count) check(false, "a struct of another length");
        }
    }
    const uint8_t zeros[32] = {0};
    const struct nlroute_value timing = nlroute_octets(NLROUTE_IFLA_CAN_BITTIMING, zeros, sizeof zeros);
    const struct nlroute_value can[] = {NLROUTE_DATA("can"), nlroute_below(2, timing)};
    refused(nlroute_change(3), NLROUTE_VALUES(can), NLROUTE_BAD_FORM, 3, "a struct that has a form of its own");
}

/*
 * A message of a bridge port, as Linux 6.18 sends it in a dump of AF_BRIDGE: name, master, MTU, state, address, the link itself
 * as IFLA_LINK, and an IFLA_PROTINFO with the options of the port.
 */
static const uint8_t port[] = {
    164, 1, 0, 0, 16, 0, 2, 0, 1, 0, 0, 0, 229, 95, 0, 0, 7, 0, 1, 0, 4, 0, 0, 0, 67, 16, 1, 0, 0, 0, 0, 0, 7, 0, 3, 0, 118,
    97, 0, 0, 8, 0, 10, 0, 2, 0, 0, 0, 8, 0, 4, 0, 220, 5, 0, 0, 5, 0, 16, 0, 6, 0, 0, 0, 10, 0, 1, 0, 194, 59, 216, 40, 212,
    178, 0, 0, 8, 0, 5, 0, 3, 0, 0, 0, 80, 1, 12, 128, 5, 0, 1, 0, 1, 0, 0, 0, 6, 0, 2, 0, 32, 0, 0, 0, 8, 0, 3, 0, 77, 0, 0,
    0, 5, 0, 4, 0, 1, 0, 0, 0, 5, 0, 5, 0, 1, 0, 0, 0, 5, 0, 6, 0, 0, 0, 0, 0, 5, 0, 7, 0, 0, 0, 0, 0, 5, 0, 28, 0, 0, 0, 0,
    0, 5, 0, 8, 0, 1, 0, 0, 0, 5, 0, 9, 0, 1, 0, 0, 0, 5, 0, 27, 0, 1, 0, 0, 0, 5, 0, 30, 0, 1, 0, 0, 0, 5, 0, 10, 0, 0, 0, 0,
    0, 5, 0, 12, 0, 0, 0, 0, 0, 12, 0, 13, 0, 16, 0, 190, 81, 32, 96, 18, 164, 12, 0, 14, 0, 16, 0, 190, 81, 32, 96, 18, 164,
    6, 0, 15, 0, 1, 128, 0, 0, 6, 0, 16, 0, 0, 0, 0, 0, 6, 0, 17, 0, 1, 128, 0, 0, 6, 0, 18, 0, 1, 0, 0, 0, 5, 0, 19, 0, 0, 0,
    0, 0, 5, 0, 20, 0, 0, 0, 0, 0, 5, 0, 29, 0, 0, 0, 0, 0, 6, 0, 31, 0, 0, 0, 0, 0, 5, 0, 32, 0, 0, 0, 0, 0, 5, 0, 35, 0, 0,
    0, 0, 0, 5, 0, 36, 0, 0, 0, 0, 0, 5, 0, 33, 0, 0, 0, 0, 0, 5, 0, 39, 0, 0, 0, 0, 0, 5, 0, 40, 0, 0, 0, 0, 0, 5, 0, 43, 0,
    0, 0, 0, 0, 12, 0, 21, 0, 0, 0, 0, 0, 0, 0, 0, 0, 12, 0, 22, 0, 68, 0, 0, 0, 0, 0, 0, 0, 12, 0, 23, 0, 24, 0, 0, 0, 0, 0,
    0, 0, 5, 0, 25, 0, 1, 0, 0, 0, 8, 0, 37, 0, 0, 2, 0, 0, 8, 0, 38, 0, 0, 0, 0, 0, 8, 0, 41, 0, 0, 0, 0, 0, 8, 0, 42, 0, 0,
    0, 0, 0,
};

/* A message of a bond: its name, an IFLA_STATS64 of two numbers, and an IFLA_LINKINFO with its kind and mode. */
static const uint8_t bond[] = {88, 0, 0, 0, 16, 0, 2, 0, 5, 0, 0, 0, 7, 0, 0, 0, 0, 0, 1, 0, 9, 0, 0, 0, 1, 0, 0, 0, 0, 0, 0,
                               0, 10, 0, 3, 0, 98, 111, 110, 100, 48, 0, 0, 0, 20, 0, 23, 0, 3, 0, 0, 0, 0, 0, 0, 0, 4, 0, 0,
                               0, 0, 0, 0, 0, 24, 0, 18, 0, 8, 0, 1, 0, 98, 111, 110, 100, 12, 0, 2, 0, 5, 0, 1, 0, 4, 0, 0, 0};

/* The values of a message are written again once they are marked: what they refer to is among the octets, in the message. */
static void values_that_were_read(const uint8_t *bytes, size_t len, ptrdiff_t wanted) {
    struct nlroute_message it;
    struct nlroute_value values[64];
    uint8_t out[ROOM];
    size_t at = 0;
    check(!nlroute_read_message(bytes, len, 0, &it) && it.is_link && it.len == len, "a message");
    const uint8_t *list = bytes + it.list;
    ptrdiff_t count = nlroute_values(NLROUTE_LINK, list, it.length, values, 64);
    check(count == wanted, "its values");
    struct nlroute_head head = nlroute_make_head(it.type, it.flags, it.index);
    head.sequence = it.sequence, head.port = it.port, head.address_family = it.address_family;
    head.link_type = it.link_type, head.link_flags = it.link_flags, head.change = it.change;
    ptrdiff_t length = nlroute_request(&head, values, (size_t)count, list, it.length, out, sizeof out, &at);
    check(length == NLROUTE_BAD_DEPTH && at == 1, "values have no mark when they are read; a name needs none");
    for (ptrdiff_t i = 0; i < count; i++)
        if (!values[i].depth) values[i] = nlroute_of_message(values[i]);
    length = nlroute_request(&head, values, (size_t)count, list, it.length, out, sizeof out, &at);
    bool has_flag = length > 6 && out[6] == (bytes[6] | 1);
    out[6] = bytes[6];
    check(has_flag && length == (ptrdiff_t)len && !memcmp(out, bytes, len), "with it, they are the same message: a request");
    length = nlroute_write(NLROUTE_LINK, values, (size_t)count, list, it.length, out, sizeof out);
    check(length == (ptrdiff_t)it.length && !memcmp(out, list, it.length), "nlroute_write() does not mind the mark");
}

int main(void) {
    values_of_other_sets();
    unknown_types();
    attributes_of_the_message();
    forgotten_depths();
    repeated_lists();
    side_by_side();
    names();
    structs();
    values_that_were_read(port, sizeof port, 7);
    values_that_were_read(bond, sizeof bond, 7);
    return failed;
}
