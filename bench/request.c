/* The call `request` of driver.c: a request that makes a bond with a name, a mode and an interval, 76 bytes. Its values are made once. */
#include "nlroute_requests.h"
#pragma weak nlroute_request
ptrdiff_t request(uint32_t family, const uint8_t *bytes, size_t len, uint8_t *out, size_t room) {
    static struct nlroute_head head;
    static struct nlroute_value values[6];
    (void)family; size_t at;
    if (!nlroute_request) return -5;
    if (head.type == 0) {
        struct nlroute_value made[] = {nlroute_name("bond0"), NLROUTE_DATA("bond"), nlroute_below(2, nlroute_number(NLROUTE_IFLA_BOND_MODE, 4)), nlroute_below(2, nlroute_number(NLROUTE_IFLA_BOND_MIIMON, 100))};
        memcpy(values, made, sizeof values), head = nlroute_create();
    }
    return nlroute_request(&head, NLROUTE_VALUES(values), bytes, len, out, room, &at);
}
