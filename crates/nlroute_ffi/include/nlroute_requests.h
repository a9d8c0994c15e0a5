/*
 * Writes requests about links, such as the one that makes a bond: whole rtnetlink messages, from a head and an array of
 * values. The function opens no socket; send() takes what it writes.
 *
 * What nlroute.h requires of callers holds here too, and its words are those of this header. In builds that say `proved`, what
 * nlroute_request() returns and stores is proved to be as described below. The inline functions, and what Linux does, are only
 * tested. The header needs no header of the kernel.
 *
 * Linux surprises in nine ways; of the first, nlroute_request() returns an error:
 * - index 0 with an IFLA_GROUP changes or deletes every link of the group;
 * - RTM_DELLINK deletes the link, except in AF_BRIDGE: take VLANs away with nlroute_bridge_delete();
 * - NLM_F_CREATE without NLM_F_EXCL changes a link that has the name;
 * - there is no NLM_F_REPLACE: use nlroute_change();
 * - a refused request is not undone: read the link again;
 * - a bond takes no port that is up;
 * - only sockets with NETLINK_EXT_ACK get the reason of an error, and the attribute's offset;
 * - datagrams of a dump have up to 32 KiB, and recv() cuts them silently;
 * - NLM_F_DUMP_INTR marks a dump during which links changed: ask again.
 */
#ifndef NLROUTE_REQUESTS_H
#define NLROUTE_REQUESTS_H

#include "nlroute.h"
#include "nlroute_kinds.h"
#include "nlroute_numbers.h"

#ifdef __cplusplus
extern "C" {
#endif

/* The fields of a struct nlmsghdr and a struct ifinfomsg, in the byte order of the machine. */
struct nlroute_head {
    uint16_t type;          /* nlmsg_type: RTM_NEWLINK (16), RTM_DELLINK (17), RTM_GETLINK (18), RTM_SETLINK (19),
                               RTM_NEWLINKPROP (108) or RTM_DELLINKPROP (109) */
    uint16_t flags;         /* nlmsg_flags: a set of NLM_F_..; NLM_F_REQUEST is added */
    uint32_t sequence;      /* nlmsg_seq: the replies have the same */
    uint32_t port;          /* nlmsg_pid: 0, or the port ID of the socket */
    uint8_t address_family; /* ifi_family: AF_UNSPEC (0), or AF_BRIDGE (7) */
    uint8_t unused;
    uint16_t link_type;     /* ifi_type: an ARPHRD_.., which Linux ignores */
    int32_t index;          /* ifi_index: the interface index, or 0 */
    uint32_t link_flags;    /* ifi_flags: a set of IFF_.. */
    uint32_t change;        /* ifi_change: those of the flags that the request changes */
}; /* 28 bytes, without padding */

/* Heads. Fields that a function does not name are 0, so set sequence yourself. */

/* Any request. */
static inline struct nlroute_head nlroute_make_head(uint16_t type, uint16_t flags, int32_t index)
{
    struct nlroute_head head;
    memset(&head, 0, sizeof head);
    head.type = type;
    head.flags = flags;
    head.index = index;
    return head;
}

/* Makes a link: RTM_NEWLINK with NLM_F_ACK, NLM_F_CREATE and NLM_F_EXCL. */
static inline struct nlroute_head nlroute_create(void)
{
    return nlroute_make_head(16, 0x604, 0);
}

/* Changes the link with this index: RTM_NEWLINK with NLM_F_ACK. An IFLA_IFNAME renames it. */
static inline struct nlroute_head nlroute_change(int32_t index)
{
    return nlroute_make_head(16, 4, index);
}

/* Deletes the link with this index: RTM_DELLINK with NLM_F_ACK. */
static inline struct nlroute_head nlroute_delete(int32_t index)
{
    return nlroute_make_head(17, 4, index);
}

/* Asks for one link, by its index or, if that is 0, by an IFLA_IFNAME: RTM_GETLINK. */
static inline struct nlroute_head nlroute_get(int32_t index)
{
    return nlroute_make_head(18, 0, index);
}

/* Asks for all links: RTM_GETLINK with NLM_F_DUMP. */
static inline struct nlroute_head nlroute_dump(void)
{
    return nlroute_make_head(18, 0x300, 0);
}

/* Sets VLANs and port options of the bridge or bridge port with this index: RTM_SETLINK with NLM_F_ACK, of AF_BRIDGE. */
static inline struct nlroute_head nlroute_bridge_set(int32_t index)
{
    struct nlroute_head head = nlroute_make_head(19, 4, index);
    head.address_family = 7;
    return head;
}

/* Deletes VLANs of it: RTM_DELLINK with NLM_F_ACK, of AF_BRIDGE. The link stays. */
static inline struct nlroute_head nlroute_bridge_delete(int32_t index)
{
    struct nlroute_head head = nlroute_make_head(17, 4, index);
    head.address_family = 7;
    return head;
}

/*
 * Adds or deletes properties of the link with this index, such as alternative names: RTM_NEWLINKPROP with NLM_F_ACK,
 * NLM_F_CREATE, NLM_F_EXCL and NLM_F_APPEND; RTM_DELLINKPROP with NLM_F_ACK.
 */
static inline struct nlroute_head nlroute_property(int32_t index)
{
    return nlroute_make_head(108, 0xE04, index);
}
static inline struct nlroute_head nlroute_property_delete(int32_t index)
{
    return nlroute_make_head(109, 4, index);
}

/* Returns the head for a link that is to be up or down: IFF_UP, in link_flags and in change. */
static inline struct nlroute_head nlroute_up(struct nlroute_head head, bool is_up)
{
    head.link_flags = (head.link_flags & ~1u) | (is_up ? 1u : 0u);
    head.change |= 1u;
    return head;
}

/*
 * Values. nlroute_request() takes those of nlroute_write(), of the set NLROUTE_LINK, with some differences. Numbers and
 * lists are made by nlroute_number(), nlroute_list() and the like. Bytes have to say their form: the functions below set
 * it.
 *
 * Depth decides what a value is: 0 is the message, 1 IFLA_LINKINFO, 2 IFLA_INFO_DATA. The same number is another attribute
 * in each: type 4 is IFLA_MTU in the message, and IFLA_BOND_UPDELAY in the data of a bond. So values of the message are
 * marked, except bytes, texts, lists of other sets, and unknown types. A value of another set whose nlroute_below() was
 * forgotten is an error, such as NLROUTE_BAD_DEPTH, or NLROUTE_BAD_FORM if the message has bytes of this type. It is not
 * noticed of a value whose type is unknown, or that is made as bytes and is something else in its set. nlroute_mtu() and the
 * like set the mark, nlroute_of_message() sets it for any other value, also for one that was read.
 */

/* The mark: the field `inner` of a value that is an attribute of the message. */
#define NLROUTE_OF_MESSAGE 0xFFFF

/* Returns the value, an attribute of the message, such as nlroute_of_message(nlroute_number(NLROUTE_IFLA_TXQLEN, 1000)). */
static inline struct nlroute_value nlroute_of_message(struct nlroute_value value)
{
    value.inner = NLROUTE_OF_MESSAGE;
    value.depth = 0;
    return value;
}

/* The offset of a value whose bytes are the first `length` of its octets, or after which the values of its list follow. */
#define NLROUTE_INLINE UINT64_MAX

/* Returns the value, one of a list that is `levels` deeper. An attribute of the message has depth 0. */
static inline struct nlroute_value nlroute_below(uint8_t levels, struct nlroute_value value)
{
    value.depth += levels;
    return value;
}

/* Bytes of the octets that are passed to nlroute_request(), in this form: BYTES, TEXT, HELD, PEER or UNKNOWN. */
static inline struct nlroute_value nlroute_passed(uint16_t kind, uint8_t form, uint64_t offset, uint32_t length)
{
    struct nlroute_value value = nlroute_lent(kind, offset, length);
    value.form = form;
    return value;
}

/*
 * Bytes of the value itself, such as an IFLA_ADDRESS, or a struct that has no form of its own, such as an
 * IFLA_VXLAN_PORT_RANGE: at most 16. nlroute_request() returns an error if there are more.
 */
static inline struct nlroute_value nlroute_octets(uint16_t kind, const void *bytes, uint32_t length)
{
    struct nlroute_value value = nlroute_address(kind, bytes, length);
    value.form = NLROUTE_FORM_BYTES;
    value.offset = NLROUTE_INLINE;
    return value;
}

/* Returns the length of a text, or 17 if it has more than 16 bytes. */
static inline uint32_t nlroute_short_length(const char *text)
{
    uint32_t length = 0;
    while (length < 17 && text[length]) length++;
    return length;
}

/* A text of the value itself, without its NUL, such as an IFLA_IFALIAS. Likewise. */
static inline struct nlroute_value nlroute_string(uint16_t kind, const char *text)
{
    struct nlroute_value value = nlroute_octets(kind, text, nlroute_short_length(text));
    value.form = NLROUTE_FORM_TEXT;
    return value;
}

/*
 * A name of a link, with its NUL: an IFLA_ALT_IFNAME, or as below. nlroute_request() returns an error if it has more than
 * 15 bytes. Pass a longer IFLA_ALT_IFNAME, of at most 127, among the octets, with its NUL:
 * nlroute_passed(NLROUTE_IFLA_ALT_IFNAME, NLROUTE_FORM_TEXT, offset, length).
 */
static inline struct nlroute_value nlroute_name_of(uint16_t kind, const char *name)
{
    uint32_t length = nlroute_short_length(name);
    /* Of a long IFLA_IFNAME 16 bytes, which are NLROUTE_BAD_NAME; of other long names 17, which are NLROUTE_BAD_OCTETS. */
    uint32_t long_length = kind == NLROUTE_IFLA_IFNAME ? 16 : 17;
    struct nlroute_value value = nlroute_octets(kind, name, length < 16 ? length + 1 : long_length);
    value.form = NLROUTE_FORM_TEXT;
    return value;
}

/* IFLA_IFNAME: the name of a new link, the new name of a link, or that of the link that is asked for. */
static inline struct nlroute_value nlroute_name(const char *name)
{
    return nlroute_of_message(nlroute_name_of(NLROUTE_IFLA_IFNAME, name));
}

/* IFLA_MTU, in bytes. */
static inline struct nlroute_value nlroute_mtu(uint32_t mtu)
{
    return nlroute_of_message(nlroute_number(NLROUTE_IFLA_MTU, mtu));
}

/* IFLA_MASTER: the index of the bond, bridge or VRF device that the link becomes a port of, or 0. */
static inline struct nlroute_value nlroute_master(uint32_t index)
{
    return nlroute_of_message(nlroute_number(NLROUTE_IFLA_MASTER, index));
}

/* IFLA_LINK: the index of the link that a VLAN device and the like is on. */
static inline struct nlroute_value nlroute_lower(uint32_t index)
{
    return nlroute_of_message(nlroute_number(NLROUTE_IFLA_LINK, index));
}

/* A list of another set, whose values follow, one deeper. */
static inline struct nlroute_value nlroute_held_list(uint16_t kind)
{
    return nlroute_passed(kind, NLROUTE_FORM_HELD, NLROUTE_INLINE, 0);
}

/* IFLA_AF_SPEC, and IFLA_PROTINFO for heads of AF_BRIDGE. The values follow, one deeper. */
static inline struct nlroute_value nlroute_af_spec(void)
{
    return nlroute_of_message(nlroute_held_list(NLROUTE_IFLA_AF_SPEC));
}
static inline struct nlroute_value nlroute_protinfo(void)
{
    return nlroute_of_message(nlroute_held_list(12));
}

/* IFLA_LINKINFO: the kinds and data follow, one deeper. A message has one. */
static inline struct nlroute_value nlroute_linkinfo(void)
{
    return nlroute_of_message(nlroute_list(NLROUTE_IFLA_LINKINFO));
}

/* IFLA_INFO_KIND, IFLA_INFO_DATA, IFLA_INFO_SLAVE_KIND and IFLA_INFO_SLAVE_DATA, in the IFLA_LINKINFO before them. */
static inline struct nlroute_value nlroute_info_kind(const char *kind)
{
    return nlroute_element(NLROUTE_IFLA_LINKINFO, nlroute_string(NLROUTE_IFLA_INFO_KIND, kind));
}
static inline struct nlroute_value nlroute_info_data(void)
{
    return nlroute_element(NLROUTE_IFLA_LINKINFO, nlroute_held_list(NLROUTE_IFLA_INFO_DATA));
}
static inline struct nlroute_value nlroute_port_kind(const char *kind)
{
    return nlroute_element(NLROUTE_IFLA_LINKINFO, nlroute_string(NLROUTE_IFLA_INFO_SLAVE_KIND, kind));
}
static inline struct nlroute_value nlroute_port_data(void)
{
    return nlroute_element(NLROUTE_IFLA_LINKINFO, nlroute_held_list(NLROUTE_IFLA_INFO_SLAVE_DATA));
}

/* Two values: an IFLA_LINKINFO with a kind, such as "dummy". */
#define NLROUTE_KIND(kind) nlroute_linkinfo(), nlroute_info_kind(kind)

/* Three values: an IFLA_LINKINFO with a kind, such as "bond", and its data. At least one value of it follows, two deeper. */
#define NLROUTE_DATA(kind) NLROUTE_KIND(kind), nlroute_info_data()

/* Likewise for a port, with the kind of its master. */
#define NLROUTE_PORT_DATA(kind) nlroute_linkinfo(), NLROUTE_AND_PORT_DATA(kind)

/*
 * Two values, which follow NLROUTE_KIND, or NLROUTE_DATA and its values, for a link that is also a port: the kind and data of
 * the port, in the same IFLA_LINKINFO. At least one value of the data follows, two deeper.
 */
#define NLROUTE_AND_PORT_DATA(kind) nlroute_port_kind(kind), nlroute_port_data()

/* The two arguments values and count, of an array; of no values. */
#define NLROUTE_VALUES(array) (array), sizeof(array) / sizeof *(array)
#define NLROUTE_NO_VALUES nlroute_no_values(), 0

/* Returns a pointer to no values, which is not NULL. */
static inline const struct nlroute_value *nlroute_no_values(void)
{
    static struct nlroute_value none;
    return &none;
}

/*
 * Writes a request to out, a buffer of room bytes: the head with NLM_F_REQUEST, then the attributes of the set NLROUTE_LINK
 * that the values encode to, in order. Values may refer to the len bytes at octets. Returns the length of the request, a
 * multiple of four; the rest of out, and *at, are unchanged. Does not allocate.
 *
 * The values are those of nlroute_write(), with these differences:
 * - The `inner` of an attribute of the message is NLROUTE_OF_MESSAGE. It may be another one if the attribute has to have its
 *   form (below), or its type is not known. No attribute of another set has this `inner`.
 * - There is at most one attribute of the message of each of the types IFLA_LINKINFO, IFLA_AF_SPEC and IFLA_PROTINFO (12).
 *   Linux would take one, and ignore the others.
 * - Bytes of any length, texts and lists of other sets have to have their form: NLROUTE_FORM_BYTES, NLROUTE_FORM_TEXT,
 *   NLROUTE_FORM_HELD. Structs may have NLROUTE_FORM_OF_KIND. If the offset of bytes, of a text or of a struct is
 *   NLROUTE_INLINE, they are the first `length` octets of the value itself.
 * - If the offset of a list of another set is NLROUTE_INLINE, the values of this list follow, one deeper; its length does not
 *   matter. The kinds in an IFLA_LINKINFO, before or after the data, the last of each, and the address family of the head
 *   tell which set reads them.
 * - With AF_BRIDGE, an IFLA_PROTINFO of NLROUTE_FORM_HELD is such a list. It is written with NLA_F_NESTED.
 * - Names and kinds are checked. A NUL at their end is not part of them.
 *
 * Returns NLROUTE_BAD_TYPE if the head has another type than the six above; then NLROUTE_NO_INDEX if its index is 0 or
 * negative, unless it is RTM_GETLINK, or RTM_NEWLINK with NLM_F_CREATE. *at is then count. Otherwise returns, for the first
 * value that cannot be written, the first of these that applies, and stores its index in *at:
 * - NLROUTE_REPEATED if it is the second attribute of the message of such a type;
 * - NLROUTE_BAD_DEPTH if its depth is not 0, nor that of a list which it follows;
 * - NLROUTE_BAD_ELEMENT if it is not an element of the list which it follows;
 * - NLROUTE_BAD_DEPTH if it is an attribute of the message and is not marked, but has to be, or if it is one of another set
 *   and is marked;
 * - NLROUTE_BAD_FORM as nlroute_write(), or if it has another form than bytes, texts and lists of other sets have to have;
 * - NLROUTE_BAD_NUMBER as nlroute_write();
 * - NLROUTE_BAD_DEPTH if it is a list of another set, and has NLROUTE_INLINE but no values follow, or the reverse;
 * - NLROUTE_NO_SET if values of a list follow that no set reads: its kind has no data, or there is no kind;
 * - NLROUTE_BAD_OCTETS as nlroute_write(), or if length is more than 16 with NLROUTE_INLINE, except of a list;
 * - NLROUTE_TOO_LONG if its payload would have more than 65531 bytes; of a list, if all values in it can be written;
 * - NLROUTE_BAD_NAME for an IFLA_IFNAME that is empty, longer than 15 bytes, "." or "..", or has a NUL, '/', ':' or a byte
 *   09 to 0D, 20 or A0; for an IFLA_INFO_KIND or IFLA_INFO_SLAVE_KIND that is empty, longer than 55 bytes, or has a NUL.
 *
 * Then returns NLROUTE_TOO_LONG if the request would have more than 2^32 - 1 bytes; *at is count. Returns NLROUTE_NO_ROOM if
 * and only if the request can be written but has more than room bytes; *at is its length. On error out is unchanged.
 */
NLROUTE_MUST_USE
ptrdiff_t nlroute_request(const struct nlroute_head *head, const struct nlroute_value *values, size_t count,
                          const uint8_t *octets, size_t len, uint8_t *out, size_t room, size_t *at);

#ifdef __cplusplus
}
#endif

#endif
