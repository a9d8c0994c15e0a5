/* Writes the request that makes a bond, and prints the bonds in a buffer of messages: here, in this request. */
#include <stdio.h>

#include <nlroute_requests.h>

/* Writes the request for a bond. Returns its length, or a negative error code. */
static ptrdiff_t make_bond(uint8_t *out, size_t room) {
    const struct nlroute_value bond[] = {
        nlroute_name("bond0"),
        NLROUTE_DATA("bond"),
        nlroute_below(2, nlroute_number(NLROUTE_IFLA_BOND_MODE, NLROUTE_BOND_MODE_8023AD)),
        nlroute_below(2, nlroute_number(NLROUTE_IFLA_BOND_MIIMON, 100)), /* ms */
    };
    struct nlroute_head head = nlroute_create();
    size_t at;
    return nlroute_request(&head, NLROUTE_VALUES(bond), NLROUTE_NO_OCTETS, out, room, &at);
}

/* Prints each attribute of a bond's list. */
static void print_bond(const uint8_t *list, size_t len) {
    struct nlroute_value values[64];
    char name[NLROUTE_TEXT_ROOM], text[NLROUTE_TEXT_ROOM];
    ptrdiff_t count = nlroute_values(NLROUTE_BOND, list, len, values, 64);
    for (ptrdiff_t i = 0; i < count; i++) {
        nlroute_kind_name(NLROUTE_BOND, &values[i], name, sizeof name);
        nlroute_text(NLROUTE_BOND, &values[i], list, len, text, sizeof text);
        printf("%s %s\n", name, text);
    }
}

int main(void) {
    uint8_t request[128];
    ptrdiff_t len = make_bond(request, sizeof request);
    struct nlroute_message message;
    struct nlroute_range bond;
    for (size_t at = 0; len > 0 && !nlroute_read_message(request, (size_t)len, at, &message); at = message.next) {
        const uint8_t *list = request + message.list;
        if (!nlroute_held(list, message.length, message.address_family, NLROUTE_BOND, &bond))
            print_bond(list + bond.offset, bond.length);
    }
    return len < 0;
}
