// Writes a request that makes a VXLAN device, and reads its ports. No struct needs the word `struct`: no function has its name.
//
// Compile it as nlroute.h says: c++ structs.cpp $(pkg-config --cflags --libs nlroute)
#include "nlroute.h"
#include "nlroute_kinds.h"
#include "nlroute_requests.h"

#include <cinttypes>
#include <cstdio>

// Writes the request. Returns its length or an error code.
static ptrdiff_t write_request(uint8_t *out, size_t room) {
    const uint8_t ports[4] = {0x80, 0, 0xFF, 0xFF}; // 32768 to 65535, in network byte order
    const nlroute_value values[] = {
        NLROUTE_DATA("vxlan"),
        nlroute_below(2, nlroute_octets(NLROUTE_IFLA_VXLAN_PORT_RANGE, ports, sizeof ports)),
    };
    const nlroute_head h = nlroute_make_head(16, 0x604, 0); // RTM_NEWLINK; NLM_F_ACK, NLM_F_CREATE and NLM_F_EXCL
    size_t at = 0;
    return nlroute_request(&h, NLROUTE_VALUES(values), NLROUTE_NO_OCTETS, out, room, &at);
}

// Prints the fields of the ports in a list of VXLAN, a line each.
static ptrdiff_t print_ports(const uint8_t *list, size_t len) {
    const uint16_t kind = NLROUTE_IFLA_VXLAN_PORT_RANGE;
    nlroute_row r;
    nlroute_value v;
    nlroute_field f;
    ptrdiff_t code = nlroute_read_row(NLROUTE_VXLAN, kind, 0, 0, &r);
    if (code == 0) code = nlroute_find(NLROUTE_VXLAN, list, len, kind, &v);
    if (code != 0) return code;
    const char *unit = r.unit == NLROUTE_UNIT_NONE ? "no unit" : "a unit";
    std::printf("a struct of %" PRIu32 " bytes with %s\n", r.width, unit);
    for (size_t i = 0; (code = nlroute_read_field(NLROUTE_VXLAN, &v, i, list, len, &f)) == 0; i++)
        std::printf("%s at %" PRIu64 ": %" PRIu64 "\n", f.name, f.offset, f.number);
    return code == NLROUTE_ABSENT ? 0 : code;
}

int main() {
    uint8_t request[128];
    nlroute_message m;
    nlroute_range held;
    const ptrdiff_t len = write_request(request, sizeof request);
    ptrdiff_t code = len < 0 ? len : nlroute_read_message(request, static_cast<size_t>(len), 0, &m);
    if (code == 0) code = nlroute_held(request + m.list, m.length, m.address_family, NLROUTE_VXLAN, &held);
    if (code == 0) code = print_ports(request + m.list + held.offset, held.length);
    if (code != 0) std::fprintf(stderr, "%s\n", nlroute_refusal_text(code));
    return code != 0;
}
