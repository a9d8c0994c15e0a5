/*
 * Reads lists as bindings/compare.py gives them, changes some, writes them again, and prints what the C API returns.
 * compare.py describes the lines.
 */
#include "nlroute.h"
#include "nlroute_kinds.h"

#include <stdio.h>
#include <stdlib.h>

enum { BYTES = 1 << 17, EXTRA = 64, TEXT = 1 << 18 };

static uint8_t list[BYTES], octets[BYTES], out[2 * BYTES];
static struct nlroute_value values[BYTES / 2 + EXTRA];
static char text[TEXT], digits[2 * BYTES + EXTRA];

static void print_hex(const uint8_t *bytes, size_t len) {
    for (size_t i = 0; i < len; i++) printf("%02x", bytes[i]);
}

static void print_words(const uint8_t *bytes, int count) {
    for (int i = 0; i < count; i++) {
        uint32_t number;
        memcpy(&number, bytes + 4 * i, 4);
        printf(" %u", number);
    }
}

static void print_content(const struct nlroute_value *value, const uint8_t *bytes) {
    const uint8_t *content = bytes + value->offset;
    unsigned long long number = value->number;
    switch (value->form) {
    case NLROUTE_FORM_EMPTY: printf("empty"); break;
    case NLROUTE_FORM_BOOL: printf("bool %llu", number); break;
    case NLROUTE_FORM_UNSIGNED: printf("unsigned %llu", number); break;
    case NLROUTE_FORM_SIGNED: printf("signed %lld", (long long)number); break;
    case NLROUTE_FORM_NAMED: printf("named %llu", number); break;
    case NLROUTE_FORM_FLAGS: printf("flags %llu", number); break;
    case NLROUTE_FORM_MASKED: printf("masked %llu %u", number, value->mask); break;
    case NLROUTE_FORM_MAC: printf("mac "), print_hex(value->octets, 6); break;
    case NLROUTE_FORM_IPV4: printf("ipv4 "), print_hex(value->octets, 4); break;
    case NLROUTE_FORM_IPV6: printf("ipv6 "), print_hex(value->octets, 16); break;
    case NLROUTE_FORM_BRIDGE_ID: printf("bridge_id %llu ", number), print_hex(value->octets, 6); break;
    case NLROUTE_FORM_VLAN_INFO: printf("vlan_info %llu %u", number, value->second); break;
    case NLROUTE_FORM_QOS_MAPPING: printf("qos_mapping %llu %u", number, value->second); break;
    case NLROUTE_FORM_BERR_COUNTER: printf("berr_counter %llu %u", number, value->second); break;
    case NLROUTE_FORM_BITTIMING: printf("bittiming"), print_words(content, 8); break;
    case NLROUTE_FORM_BITTIMING_CONST:
        printf("bittiming_const "), print_hex(content, strnlen((const char *)content, 15)), print_words(content + 16, 8);
        break;
    case NLROUTE_FORM_BYTES: printf("bytes "), print_hex(content, value->length); break;
    case NLROUTE_FORM_TEXT: printf("text "), print_hex(content, value->length); break;
    case NLROUTE_FORM_HELD: printf("held "), print_hex(content, value->length); break;
    case NLROUTE_FORM_PEER: printf("peer "), print_hex(content, value->length); break;
    case NLROUTE_FORM_LIST: printf("list %llu", number); break;
    default: printf("unknown %u ", value->flags), print_hex(content, value->length);
    }
}

/* Prints a value in the words of compare.py. */
static void print_value(uint32_t family, const struct nlroute_value *value, const uint8_t *bytes) {
    nlroute_kind_name(family, value, text, sizeof text);
    printf("value %u %u %s ", value->depth, value->depth ? value->inner : value->kind, text);
    print_content(value, bytes);
    printf("\n");
}

/* Prints the name of a value, and its text. Returns whether it has a text. */
static bool print_text(uint32_t family, const struct nlroute_value *value, const uint8_t *bytes, size_t len) {
    nlroute_kind_name(family, value, text, sizeof text);
    printf("text %*s%s", 2 * value->depth, "", text);
    if (value->flags)
        printf(" %s%s%s", value->flags & 0x4000 ? "NLA_F_NET_BYTEORDER" : "", value->flags == 0xC000 ? "|" : "",
               value->flags & 0x8000 ? "NLA_F_NESTED" : "");
    nlroute_text(family, value, bytes, len, text, sizeof text);
    printf("%s%s", *text ? " " : "", text);
    return *text;
}

/* Whether the elements of a value are addresses or numbers, which have places. */
static bool is_array(uint32_t family, const struct nlroute_value *value) {
    const struct nlroute_value last = {.kind = value->kind, .inner = UINT16_MAX, .depth = 1};
    nlroute_kind_name(family, &last, text, sizeof text);
    return *text == '[';
}

/* Prints numbers whose places have names: those that are not 0, and how many are. */
static void print_named(uint32_t family, const struct nlroute_value *items, size_t count, const uint8_t *bytes, size_t len) {
    size_t zeros = 0;
    for (size_t i = 0; i < count; i++) {
        if (!items[i].number) {
            zeros++;
            continue;
        }
        nlroute_kind_name(family, &items[i], text, sizeof text);
        printf(" %s", text);
        nlroute_text(family, &items[i], bytes, len, text, sizeof text);
        printf(" %s", text);
    }
    if (zeros) printf(" (%zu zero)", zeros);
}

/* Prints the elements of a list: addresses and numbers after its name, with the unit at the end; others in lines. */
static void print_elements(uint32_t family, const struct nlroute_value *list, const uint8_t *bytes, size_t len) {
    const struct nlroute_value *items = list + 1;
    size_t count = (size_t)list->number;
    bool has_places = is_array(family, list);
    nlroute_kind_name(family, items, text, sizeof text);
    if (has_places && *text != '[') {
        print_named(family, items, count, bytes, len);
        return;
    }
    for (size_t i = 0; i < count; i++) {
        if (has_places) {
            nlroute_text(family, &items[i], bytes, len, text, sizeof text);
            if (i + 1 != count) text[strcspn(text, " ")] = 0;
            printf(" %s", text);
        } else {
            printf("\n");
            print_text(family, &items[i], bytes, len);
        }
    }
}

/* Prints a line for each attribute as nlshow does. */
static void print_texts(uint32_t family, size_t count, const uint8_t *bytes, size_t len) {
    for (size_t i = 0; i < count; i++) {
        bool has_text = print_text(family, &values[i], bytes, len);
        if (values[i].form == NLROUTE_FORM_LIST && values[i].number) {
            print_elements(family, &values[i], bytes, len);
            i += (size_t)values[i].number;
        } else if (values[i].form == NLROUTE_FORM_LIST && !has_text) {
            printf(" (empty)");
        }
        printf("\n");
    }
}

/* Values, and the bytes that they refer to. */
struct store {
    size_t count, len;
};

/* Removes all values of a type, with their elements. Returns the index of the first, or the number of values. */
static size_t take_out(struct store *store, uint16_t kind) {
    size_t kept = 0, first = store->count;
    for (size_t i = 0; i < store->count; i++) {
        if (values[i].kind == kind && first == store->count) first = kept;
        if (values[i].kind != kind) values[kept++] = values[i];
    }
    if (first == store->count) first = kept;
    store->count = kept;
    return first;
}

static void put_in(struct store *store, size_t at, const struct nlroute_value *added, size_t count) {
    memmove(values + at + count, values + at, (store->count - at) * sizeof *values);
    memcpy(values + at, added, count * sizeof *values);
    store->count += count;
}

static void push(struct store *store, struct nlroute_value value) { put_in(store, store->count, &value, 1); }

static void set(struct store *store, struct nlroute_value value) {
    put_in(store, take_out(store, value.kind), &value, 1);
}

/* Returns a value of bytes, which it copies to the store. */
static struct nlroute_value copied(struct store *store, uint16_t kind, const void *bytes, uint32_t len) {
    memcpy(octets + store->len, bytes, len);
    store->len += len;
    return nlroute_lent(kind, store->len - len, len);
}

static void change_bond(struct store *store, uint32_t number) {
    static const uint8_t targets[2][4] = {{10, 0, 0, 1}, {10, 0, 0, 2}}, mac[6] = {2, 0, 0, 0, 0, 1};
    const uint16_t arp = NLROUTE_IFLA_BOND_ARP_IP_TARGET, info = NLROUTE_IFLA_BOND_AD_INFO;
    const struct nlroute_value of_arp[] = {nlroute_list(arp), nlroute_element(arp, nlroute_address(0, targets[0], 4)),
                                           nlroute_element(arp, nlroute_address(1, targets[1], 4))};
    set(store, nlroute_number(NLROUTE_IFLA_BOND_MIIMON, number));
    put_in(store, take_out(store, arp), of_arp, 3);
    push(store, nlroute_list(info));
    push(store, nlroute_element(info, nlroute_number(NLROUTE_IFLA_BOND_AD_INFO_AGGREGATOR, number & 0xFFFF)));
    push(store, nlroute_element(info, nlroute_address(NLROUTE_IFLA_BOND_AD_INFO_PARTNER_MAC, mac, 6)));
}

static void change_vlan(struct store *store, uint32_t number) {
    const uint16_t qos = NLROUTE_IFLA_VLAN_EGRESS_QOS;
    struct nlroute_value mapping = nlroute_flags(NLROUTE_IFLA_VLAN_QOS_MAPPING, number, 1);
    set(store, nlroute_flags(NLROUTE_IFLA_VLAN_FLAGS, number, number));
    set(store, nlroute_number(NLROUTE_IFLA_VLAN_PROTOCOL, number & 0xFFFF));
    push(store, nlroute_list(qos));
    push(store, nlroute_element(qos, mapping));
}

/* Changes the values as compare.py describes it. */
static void change(struct store *store, uint32_t family, uint32_t number) {
    const uint32_t timing[8] = {number, 875};
    struct nlroute_value unknown = copied(store, 99, &number, 4);
    unknown.form = NLROUTE_FORM_UNKNOWN;
    unknown.flags = 0x8000;
    switch (family) {
    case NLROUTE_BOND: change_bond(store, number); break;
    case NLROUTE_BRIDGE:
        set(store, nlroute_number(NLROUTE_IFLA_BR_FORWARD_DELAY, number));
        push(store, nlroute_number(NLROUTE_IFLA_BR_MCAST_HASH_MAX, 512));
        take_out(store, NLROUTE_IFLA_BR_PRIORITY);
        break;
    case NLROUTE_VLAN: change_vlan(store, number); break;
    case NLROUTE_CAN:
        set(store, copied(store, NLROUTE_IFLA_CAN_BITTIMING, timing, sizeof timing));
        push(store, nlroute_number(NLROUTE_IFLA_CAN_RESTART_MS, number));
        break;
    default: break;
    }
    push(store, unknown);
}

static void print_written(const struct store *store, uint32_t family) {
    size_t at = 0, index = 0;
    ptrdiff_t wrote = nlroute_write(family, values, store->count, octets, store->len, out, sizeof out);
    if (wrote >= 0) {
        printf("bytes "), print_hex(out, (size_t)wrote), printf("\n");
        return;
    }
    ptrdiff_t code = nlroute_measure(family, values, store->count, octets, store->len, &at);
    for (size_t i = 1; i <= at; i++) index += values[i].depth == 0;
    nlroute_kind_name(family, &values[at], text, sizeof text);
    printf("rejected %zu %s %td %s\n", index, text, code, nlroute_refusal_text(code));
}

static void print_error(uint32_t family, size_t len) {
    struct nlroute_fault fault;
    if (nlroute_first_fault(family, list, len, &fault)) exit(1);
    nlroute_fault_text(family, &fault, text, sizeof text);
    printf("fault %llu %u %u %u %u %llu %llu\ntext %s\n", (unsigned long long)fault.at, fault.place, fault.cause,
           fault.kind, fault.inner, (unsigned long long)fault.first, (unsigned long long)fault.second, text);
}

int main(void) {
    unsigned family, changes, number;
    /* the list begins with `=`, since it may be empty */
    while (scanf("%u %u %u %262143s", &family, &changes, &number, digits) == 4) {
        struct store store = {0, strlen(digits) / 2};
        for (size_t i = 0; i < store.len; i++) {
            unsigned byte;
            if (sscanf(digits + 1 + 2 * i, "%2x", &byte) != 1) return 1;
            octets[i] = list[i] = (uint8_t)byte;
        }
        ptrdiff_t count = nlroute_values(family, list, store.len, values, BYTES / 2);
        if (count < 0) {
            print_error(family, store.len);
        } else {
            store.count = (size_t)count;
            for (size_t i = 0; i < store.count; i++) print_value(family, &values[i], list);
            print_texts(family, store.count, list, store.len);
            if (changes) change(&store, family, number);
            print_written(&store, family);
        }
        printf("end\n");
    }
    return 0;
}
