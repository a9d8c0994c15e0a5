/*
 * Parses, prints, checks, re-encodes and writes lists of netlink link attributes, finds them in messages, and writes
 * requests.
 *
 * A list is the attributes of a message about a link, or the payload of an IFLA_INFO_DATA, IFLA_INFO_SLAVE_DATA,
 * IFLA_AF_SPEC or IFLA_PROTINFO attribute. Numbers in lists are little-endian, whatever the byte order of the machine.
 * In builds that say `proved` (nlroute_build()), return values and outputs are proved to be as described below, for every
 * input; the contracts are in crates/nlroute_ffi/src/lib.rt of the sources. Tested only are what is marked "not proved",
 * the inline functions, and that a function does not allocate.
 *
 * Words in names and comments:
 * - family, or set: an attribute set, the attribute types of one kind of list. It is not an address family such as AF_BRIDGE.
 * - kind: an attribute type, nla_type without flags; in nlroute_info_kind() and the like, the text of IFLA_INFO_KIND.
 * - value: an attribute, decoded; or an element of a list in it, such as one of its addresses.
 * - held: of a list, that an attribute of another set has it as its payload, as IFLA_INFO_DATA has that of a bond.
 * - octets: bytes that values refer to by offset and length, such as the list that they were read from. nlroute_lent() and
 *   nlroute_passed() make such a value.
 * - room: the size of an output buffer, in bytes; places: that of an array of values.
 * - depth: how many lists a value is in, below the attributes of a message; nlroute_below() adds to it.
 * - lower: the link below a VLAN device and the like, IFLA_LINK.
 * - canonical: of a list, that all padding is present and zero, each nla_type is the one that is written, with its flags, and
 *   each payload is the only encoding of its value.
 *
 * Requirements on the caller:
 * - No pointer is NULL, even for a length of 0. Each is aligned for its type and points to at least as many elements as
 *   the length that goes with it. Input memory must be initialized; output memory need not be, since no function reads
 *   what it has not written (not proved).
 * - The outputs (out, text, values, value, fault, status, *at, the struct that a call stores) overlap neither each other
 *   nor an input. During a call, no other thread writes to the inputs, or reads or writes the outputs.
 * - No buffer is larger than PTRDIFF_MAX bytes.
 * - No function is called from a signal handler, or in the child after a fork() of a multithreaded process.
 *
 * The caller keeps ownership of everything it passes. The library keeps no pointer to it and returns nothing that has
 * to be freed. What a function allocates with malloc() and realloc(), it frees before it returns (not proved). Different
 * threads may call the functions at the same time.
 *
 * nlroute_kinds.h has the attribute types by the kernel's names, nlroute_numbers.h the numbers of enums and the flags, and
 * nlroute_requests.h writes requests. The headers are C99, and C++11 or later. No function has the name of a struct:
 * nlroute_read_message() stores a struct nlroute_message, and nlroute_make_head() returns a struct nlroute_head. So C++ needs
 * no `struct`, as in `nlroute_message message;`.
 *
 * Compile with pkg-config, once the library is installed:
 * cc main.c $(pkg-config --cflags --libs nlroute)
 */
#ifndef NLROUTE_H
#define NLROUTE_H

#include <stdbool.h>
#include <stddef.h>
#include <stdint.h>
#include <string.h>

#ifdef __cplusplus
extern "C" {
#endif

/* The compiler warns if the result of a call is ignored, which may be an error. */
#if defined(__GNUC__)
#define NLROUTE_MUST_USE __attribute__((warn_unused_result))
#define NLROUTE_EXTENSION __extension__ /* C99 has no anonymous unions */
#else
#define NLROUTE_MUST_USE
#define NLROUTE_EXTENSION
#endif

/*
 * The version of this header: a byte each for major, minor and patch. A program runs with any shared object of the same
 * major and minor version, which are part of the object's name.
 */
#define NLROUTE_VERSION 0x000300u

/* Returns NLROUTE_VERSION as it was in the header of the library that is linked. */
NLROUTE_MUST_USE
uint32_t nlroute_version(void);

/*
 * Returns the mark of the library that is linked, such as "nlroute 0.3.0, proved, commit .., rattle-kit-13f ..": version,
 * "proved" or "unproved", commit and toolchain. The string is constant and ends with a NUL. The mark is added when the
 * library is linked: neither the function nor what it says is proved.
 */
NLROUTE_MUST_USE
const char *nlroute_build(void);

/* The attribute sets. */
enum nlroute_family {
    NLROUTE_AF_SPEC_BRIDGE = 0, /* IFLA_AF_SPEC in AF_BRIDGE messages */
    NLROUTE_BOND = 1, /* IFLA_INFO_DATA of bonds */
    NLROUTE_BOND_PORT = 2, /* IFLA_INFO_SLAVE_DATA of bond ports */
    NLROUTE_BRIDGE = 3, /* IFLA_INFO_DATA of bridges */
    NLROUTE_BRIDGE_PORT = 4, /* IFLA_INFO_SLAVE_DATA of bridge ports */
    NLROUTE_VLAN = 5, /* IFLA_INFO_DATA of VLAN devices */
    NLROUTE_CAN = 6, /* IFLA_INFO_DATA of CAN controllers */
    NLROUTE_DSA = 7, /* IFLA_INFO_DATA of DSA ports */
    NLROUTE_HSR = 8, /* IFLA_INFO_DATA of HSR and PRP devices */
    NLROUTE_PROTO_BRIDGE = 9, /* IFLA_PROTINFO in AF_BRIDGE messages: attribute type 45 only */
    NLROUTE_VXLAN = 10, /* IFLA_INFO_DATA of VXLAN devices */
    NLROUTE_LINK = 11, /* messages about links */
    NLROUTE_AF_SPEC = 12, /* IFLA_AF_SPEC in other messages than those of AF_BRIDGE */
    NLROUTE_INET = 13, /* AF_INET of a link for IPv4 */
    NLROUTE_INET6 = 14, /* AF_INET6 of a link for IPv6 */
    NLROUTE_MCTP = 15, /* AF_MCTP of a link for MCTP */
    NLROUTE_REPLY = 16, /* replies to requests */
    NLROUTE_GENEVE = 17, /* IFLA_INFO_DATA of GENEVE devices */
    NLROUTE_VRF = 18, /* IFLA_INFO_DATA of VRF devices */
    NLROUTE_VRF_PORT = 19, /* IFLA_INFO_SLAVE_DATA of VRF ports */
    NLROUTE_TUN = 20, /* IFLA_INFO_DATA of TUN and TAP devices */
    NLROUTE_IPVLAN = 21, /* IFLA_INFO_DATA of IPVLAN and IPVTAP devices */
    NLROUTE_MACVLAN = 22, /* IFLA_INFO_DATA of MACVLAN and MACVTAP devices */
    NLROUTE_NETKIT = 23, /* IFLA_INFO_DATA of NETKIT devices */
    NLROUTE_VETH = 24 /* IFLA_INFO_DATA of VETH and VXCAN devices */
};

/*
 * Error codes, returned in place of a length or count. The outputs are unchanged on error, with these exceptions:
 * - nlroute_rewrite_streaming() may have changed the start of out;
 * - nlroute_values() has stored the first values if it returns NLROUTE_NO_ROOM;
 * - nlroute_measure() has stored an index in *at, unless it returns NLROUTE_NO_ROOM or NLROUTE_NO_FAMILY;
 * - nlroute_request() has stored an index or a length in *at;
 * - the functions for texts store the empty text.
 */
enum nlroute_refusal {
    NLROUTE_HAS_FAULT = -1, /* the input is not a list of this attribute set; nlroute_first_fault() has the first
                               error. Of a message: it is malformed; nlroute_message_fault() has the error */
    NLROUTE_TOO_LONG = -2,  /* an otherwise valid attribute would have a payload of more than 65531 bytes */
    NLROUTE_NO_MEMORY = -3, /* an allocation failed (not proved: that this is the only reason for the code); returned by
                               nlroute_rewrite(), nlroute_rewrite_streaming() and nlroute_report() only */
    NLROUTE_NO_ROOM = -4,   /* the output buffer is too small; each function specifies the size that it needs */
    NLROUTE_NO_FAMILY = -5, /* family is not one of the numbers above */
    NLROUTE_ABSENT = -6,    /* the list does not have what was looked up, or has no error; a number or a bit has no
                               name; a struct has no such field; there is no further message; no set reads a value */
    NLROUTE_BAD_FORM = -7,  /* the value has another form than was expected, or than its attribute type; the struct has
                               numbers that the library never stores */
    NLROUTE_BAD_NUMBER = -8,  /* the attribute cannot hold the number */
    NLROUTE_BAD_ELEMENT = -9, /* an element does not follow a list of its attribute type; the type has no elements */
    NLROUTE_BAD_OCTETS = -10, /* the bytes of the value are outside the input, or not as many as its form has */
    NLROUTE_BAD_TYPE = -11,   /* this and the codes below are those of nlroute_requests.h only: the type of the head is
                                 not that of a request about links */
    NLROUTE_NO_INDEX = -12,   /* the request changes or deletes a link, and its index is 0 or negative */
    NLROUTE_BAD_NAME = -13,   /* a name that Linux rejects, or a kind that it rejects or cuts */
    NLROUTE_NO_SET = -14,     /* values follow a list that no attribute set reads */
    NLROUTE_BAD_DEPTH = -15,  /* a value whose depth is not that of its list, or that is not marked as one of the message */
    NLROUTE_REPEATED = -16    /* a second list of a type of which a message has one */
};

/* Returns the meaning of an error code in words. */
static inline const char *nlroute_refusal_text(ptrdiff_t code)
{
    switch (code) {
    case NLROUTE_HAS_FAULT: return "the list is malformed";
    case NLROUTE_TOO_LONG: return "a value does not fit in an attribute";
    case NLROUTE_NO_MEMORY: return "an allocation failed";
    case NLROUTE_NO_ROOM: return "the buffer is too small";
    case NLROUTE_NO_FAMILY: return "no attribute set has this number";
    case NLROUTE_ABSENT: return "there is no such attribute, element, field, name or error";
    case NLROUTE_BAD_FORM: return "the value has another form";
    case NLROUTE_BAD_NUMBER: return "the attribute cannot hold the number";
    case NLROUTE_BAD_ELEMENT: return "an element does not follow its list";
    case NLROUTE_BAD_OCTETS: return "the bytes of the value are not in the input, or have a wrong length";
    case NLROUTE_BAD_TYPE: return "the message is not a request about links";
    case NLROUTE_NO_INDEX: return "the index of the link is 0 or negative";
    case NLROUTE_BAD_NAME: return "Linux does not take the name or kind";
    case NLROUTE_NO_SET: return "no attribute set reads the list of these values";
    case NLROUTE_BAD_DEPTH: return "the value has a wrong depth, or is not marked as one of the message";
    case NLROUTE_REPEATED: return "the message has a second list of this type";
    default: return code < 0 ? "unknown error" : "no error";
    }
}

/*
 * Lists. The descriptions here and below apply if family is one of enum nlroute_family. For any other number, a function
 * returns NLROUTE_NO_FAMILY and writes nothing; nlroute_is_canonical() returns false, and the functions for texts
 * store the empty text.
 */

/*
 * Re-encodes a list: parses the len bytes of the input and serializes their values to out, a buffer of room bytes.
 * Returns the number of bytes written; the rest of out is unchanged.
 *
 * The output is the same as the input if and only if the input is canonical. It is never longer than len rounded up to
 * a multiple of four, so NLROUTE_NO_ROOM cannot occur if room is at least that. It decodes to the same values, except
 * for names of CAN controllers. A name ends before the first NUL. Each part of it that is not UTF-8 is replaced by
 * U+FFFD (a byte 88 becomes ef bf bd), and what results is truncated to 15 bytes. In a list of addresses, attributes of
 * another size are no values: they are dropped, and the others are numbered from 0.
 *
 * Re-encoding the output yields a canonical list, and re-encoding a canonical list does not change it.
 *
 * Returns, unless an allocation fails,
 * - NLROUTE_HAS_FAULT if and only if the input is malformed;
 * - NLROUTE_TOO_LONG if and only if the input decodes but a value does not fit;
 * - NLROUTE_NO_ROOM if and only if all values fit but their encoding has more than room bytes.
 *
 * NLROUTE_NO_MEMORY is possible only if the input starts with a whole attribute.
 */
NLROUTE_MUST_USE
ptrdiff_t nlroute_rewrite(uint32_t family, const uint8_t *bytes, size_t len, uint8_t *out, size_t room);

/*
 * Re-encodes a list as nlroute_rewrite() does, but one attribute at a time: it writes each value before it parses the
 * next attribute. It builds no list of values, and allocates only for values that own heap memory. Returns the
 * number of bytes written; the rest of out is unchanged.
 *
 * In the following, m is len rounded up to a multiple of four.
 *
 * Returns NLROUTE_NO_ROOM if and only if room is less than m, for any input; out is then unchanged. Otherwise
 * NLROUTE_HAS_FAULT and NLROUTE_TOO_LONG are returned as by nlroute_rewrite(). NLROUTE_NO_MEMORY is possible only if
 * an attribute that does not follow the first error has a value that owns heap memory: a list, bytes, a struct
 * can_bittiming_const, or one of unknown type. These three errors may leave changes in the first m bytes of out, but not
 * after them.
 */
NLROUTE_MUST_USE
ptrdiff_t nlroute_rewrite_streaming(uint32_t family, const uint8_t *bytes, size_t len, uint8_t *out, size_t room);

/*
 * Checks whether a list decodes. Returns the number of its values; each attribute is one value. Does not allocate.
 *
 * Returns NLROUTE_HAS_FAULT if and only if the input is malformed.
 */
NLROUTE_MUST_USE
ptrdiff_t nlroute_count(uint32_t family, const uint8_t *bytes, size_t len);

/* Values of a list, as an array. The functions below do not allocate. */

/* What a value holds, and in which of its fields. */
enum nlroute_form {
    NLROUTE_FORM_OF_KIND = 0,          /* for writing: the form of the attribute type; never stored */
    NLROUTE_FORM_EMPTY = 1,            /* no value: the attribute is there */
    NLROUTE_FORM_BOOL = 2,             /* number: 0 or 1; of a flag that may have no payload, length: 0 or 1 */
    NLROUTE_FORM_UNSIGNED = 3,         /* number */
    NLROUTE_FORM_SIGNED = 4,           /* number, as (int64_t)number */
    NLROUTE_FORM_NAMED = 5,            /* number: of an enum (nlroute_numbers.h) */
    NLROUTE_FORM_FLAGS = 6,            /* number: a set of flags */
    NLROUTE_FORM_MASKED = 7,           /* number: a set of flags; mask: its mask */
    NLROUTE_FORM_MAC = 8,              /* octets: 6 */
    NLROUTE_FORM_IPV4 = 9,             /* octets: 4, as in struct in_addr */
    NLROUTE_FORM_IPV6 = 10,            /* octets: 16, as in struct in6_addr */
    NLROUTE_FORM_BRIDGE_ID = 11,       /* number: the priority; octets: the address, 6 */
    NLROUTE_FORM_VLAN_INFO = 12,       /* number: the VLAN ID; second: the flags (struct bridge_vlan_info) */
    NLROUTE_FORM_QOS_MAPPING = 13,     /* number: from; second: to (struct ifla_vlan_qos_mapping) */
    NLROUTE_FORM_BERR_COUNTER = 14,    /* number: txerr; second: rxerr (struct can_berr_counter) */
    NLROUTE_FORM_BITTIMING = 15,       /* 32 bytes at offset: struct can_bittiming */
    NLROUTE_FORM_BITTIMING_CONST = 16, /* 48 bytes at offset: struct can_bittiming_const */
    NLROUTE_FORM_BYTES = 17,           /* length bytes at offset */
    NLROUTE_FORM_LIST = 18,            /* number: how many elements follow */
    NLROUTE_FORM_UNKNOWN = 19,         /* length bytes at offset: the payload of an attribute whose type is not known;
                                          flags */
    NLROUTE_FORM_TEXT = 20,            /* length bytes at offset: a text; a NUL at its end is part of it */
    NLROUTE_FORM_HELD = 21,            /* length bytes at offset: a list of attributes of another set */
    NLROUTE_FORM_PEER = 22             /* length bytes at offset: 16 of a struct ifinfomsg, then attributes of a link */
};

/*
 * An attribute of a list, or an element of an attribute that is a list. Elements follow their list: those of a nested
 * list, the addresses of a list of addresses, and the numbers of an array. In a list of addresses, attributes of
 * another size are skipped; they have no index.
 *
 * Numbers are in the byte order of the machine, including VLAN protocols and bridge priorities. Fields that the form
 * does not use are 0, except for offset and length. nlroute_kinds.h has the form of each attribute type.
 */
struct nlroute_value {
    uint16_t kind;  /* attribute type (nla_type) without flags; for an element, that of its list */
    uint16_t inner; /* for an element: its own attribute type, or its index among the addresses or numbers; else 0 */
    uint16_t flags; /* for NLROUTE_FORM_UNKNOWN: NLA_F_NESTED and NLA_F_NET_BYTEORDER of nla_type; else 0 */
    uint8_t form;   /* an nlroute_form */
    uint8_t depth;  /* 0 for an attribute, 1 for an element */
    NLROUTE_EXTENSION union {
        uint32_t mask;
        uint32_t second;
    };
    uint32_t length; /* length of the content in the input, in bytes */
    uint64_t number;
    uint64_t offset; /* offset of the content in the input, in bytes */
    uint8_t octets[16];
}; /* 48 bytes, without padding */

/*
 * Counts the values that nlroute_values() stores for a list: one for each attribute, and one for each element of an
 * attribute that is a list. nlroute_count() counts the attributes only. The count is never greater than len / 2. Does
 * not allocate.
 *
 * Returns NLROUTE_HAS_FAULT if and only if the input is malformed.
 */
NLROUTE_MUST_USE
ptrdiff_t nlroute_places(uint32_t family, const uint8_t *bytes, size_t len);

/*
 * Parses a list, and stores its values in order in the array `values`, which has `places` elements. Returns the number
 * of values stored; the other elements of the array are unchanged. Does not allocate.
 *
 * Returns
 * - NLROUTE_HAS_FAULT if and only if the input is malformed; the array is then unchanged;
 * - NLROUTE_NO_ROOM if and only if the input decodes but has more than `places` values; the array then has the first
 *   of them.
 */
NLROUTE_MUST_USE
ptrdiff_t nlroute_values(uint32_t family, const uint8_t *bytes, size_t len, struct nlroute_value *values,
                         size_t places);

/*
 * Looks up the last attribute of type `kind` in a list. It is the one that Linux takes, except for types of which Linux
 * takes all (not proved). Stores its value in *value, as nlroute_values() stores it, and returns 0. For a list, number
 * is the number of its elements, which are not stored. Does not allocate.
 *
 * NLROUTE_PROTO_BRIDGE knows one type only: all others have NLROUTE_FORM_UNKNOWN and the number 0. To look up an
 * attribute of an IFLA_PROTINFO, pass NLROUTE_BRIDGE_PORT.
 *
 * On error *value is unchanged. Returns
 * - NLROUTE_HAS_FAULT if and only if the input is malformed;
 * - NLROUTE_ABSENT if and only if the input decodes but has no attribute of this type.
 */
NLROUTE_MUST_USE
ptrdiff_t nlroute_find(uint32_t family, const uint8_t *bytes, size_t len, uint16_t kind, struct nlroute_value *value);

/*
 * Looks up the last element `inner` of the last attribute of type `kind` in a list: inner is the element's own type, or
 * its index in a list of addresses or an array of numbers. Stores its value in *value, as nlroute_values() stores it,
 * and returns 0. Does not allocate.
 *
 * On error *value is unchanged. Returns
 * - NLROUTE_HAS_FAULT if and only if the input is malformed;
 * - NLROUTE_ABSENT if and only if the input decodes but has no such element.
 */
NLROUTE_MUST_USE
ptrdiff_t nlroute_find_in(uint32_t family, const uint8_t *bytes, size_t len, uint16_t kind, uint16_t inner,
                          struct nlroute_value *value);

/*
 * Stores the struct that a value of NLROUTE_FORM_BITTIMING or NLROUTE_FORM_BITTIMING_CONST refers to, and returns 0.
 * The input is the list that the value was read from. The structs are those of linux/can/netlink.h. The name in a
 * struct can_bittiming_const has the bytes of the input before the first NUL, at most 15, and zeros after them: unlike
 * nlroute_rewrite(), this call replaces no bytes. Does not allocate.
 *
 * On error the struct is unchanged. Returns
 * - NLROUTE_BAD_FORM if and only if the value has another form;
 * - NLROUTE_BAD_OCTETS if and only if it has this form, but its length is not 32 (48), or the input has fewer than
 *   offset + length bytes.
 */
struct can_bittiming;
struct can_bittiming_const;
NLROUTE_MUST_USE
ptrdiff_t nlroute_can_bittiming(const struct nlroute_value *value, const uint8_t *bytes, size_t len,
                                struct can_bittiming *timing);
NLROUTE_MUST_USE
ptrdiff_t nlroute_can_bittiming_const(const struct nlroute_value *value, const uint8_t *bytes, size_t len,
                                      struct can_bittiming_const *limits);

/* A field of a struct. */
struct nlroute_field {
    char name[32];      /* the kernel's name, such as "bitrate", and zeros; no name has more than 31 bytes */
    uint64_t number;    /* in the byte order of the machine; of NLROUTE_FORM_SIGNED, as (int64_t)number; 0 if it is none */
    uint64_t offset;    /* where the field starts in the struct, in bytes */
    uint32_t length;    /* length of the field in bytes */
    uint32_t form;      /* an nlroute_form: UNSIGNED, SIGNED, NAMED, FLAGS, MAC, or BYTES for any other field */
    uint8_t octets[16]; /* of a field that is no number: its bytes, at most 16, and zeros; else zeros */
}; /* 72 bytes, without padding */

/*
 * Stores field number `index`, from 0 on, of the struct that a value holds, and returns 0. The fields and their order are
 * those that nlroute_text() prints: also those of structs that have a form of their own in C, such as
 * NLROUTE_FORM_VLAN_INFO, and of those that have none, which are NLROUTE_FORM_BYTES. In octets, such a struct is at the
 * offset of the value, and its field at the sum of both offsets. To get all fields, count up until NLROUTE_ABSENT.
 * Padding is no field. NLROUTE_FORM_BITTIMING_CONST, NLROUTE_FORM_QOS_MAPPING and a set of VLAN flags have none:
 * nlroute_can_bittiming_const(), and number, second and mask have their contents.
 *
 * The struct is the one that nlroute_write() writes for the value. The same fields of the value matter, as for
 * nlroute_text(), and the len bytes at octets are those that it refers to. Does not allocate.
 *
 * On error *field is unchanged. Returns the error of nlroute_text() for this value, if there is one. Otherwise returns
 * NLROUTE_ABSENT if and only if the struct has at most `index` fields, or the values of the type are no such structs.
 */
NLROUTE_MUST_USE
ptrdiff_t nlroute_read_field(uint32_t family, const struct nlroute_value *value, size_t index, const uint8_t *octets,
                             size_t len, struct nlroute_field *field);

/*
 * Values for nlroute_write(). Each of these has NLROUTE_FORM_OF_KIND, so the attribute type determines the form; set form
 * for an attribute whose type is not known. Every field that is not an argument is 0.
 */

/*
 * A number, a boolean, an enum, or a set of flags without a mask. An attribute without a value has the number 0. A flag
 * that may have no payload has none: its number is 1. Set its length to 1 for a payload of one byte.
 */
static inline struct nlroute_value nlroute_number(uint16_t kind, uint64_t number)
{
    struct nlroute_value value;
    memset(&value, 0, sizeof value);
    value.kind = kind;
    value.number = number;
    return value;
}

/* A set of flags with a mask. */
static inline struct nlroute_value nlroute_flags(uint16_t kind, uint32_t flags, uint32_t mask)
{
    struct nlroute_value value = nlroute_number(kind, flags);
    value.mask = mask;
    return value;
}

/*
 * Two numbers: a priority and the one that it is mapped to, a VLAN ID and its flags, or the counters txerr and rxerr.
 */
static inline struct nlroute_value nlroute_pair(uint16_t kind, uint32_t number, uint32_t second)
{
    struct nlroute_value value = nlroute_number(kind, number);
    value.second = second;
    return value;
}

/* A bridge ID: the priority, and the address, which has 6 octets. */
static inline struct nlroute_value nlroute_bridge_id(uint16_t kind, uint16_t priority, const void *address)
{
    struct nlroute_value value = nlroute_number(kind, priority);
    memcpy(value.octets, address, 6);
    value.length = 8;
    return value;
}

/* A MAC, IPv4 or IPv6 address: 6, 4 or 16 octets. */
static inline struct nlroute_value nlroute_address(uint16_t kind, const void *octets, uint32_t length)
{
    struct nlroute_value value = nlroute_number(kind, 0);
    memcpy(value.octets, octets, length < sizeof value.octets ? length : sizeof value.octets);
    value.length = length;
    return value;
}

/* Bytes, or a struct: length bytes at offset of those that are passed to nlroute_write(). */
static inline struct nlroute_value nlroute_lent(uint16_t kind, uint64_t offset, uint32_t length)
{
    struct nlroute_value value = nlroute_number(kind, 0);
    value.offset = offset;
    value.length = length;
    return value;
}

/* A list, whose elements follow. */
static inline struct nlroute_value nlroute_list(uint16_t kind)
{
    return nlroute_number(kind, 0);
}

/* An element of a list: a value whose kind is that of the element, or its index among the addresses or numbers. */
static inline struct nlroute_value nlroute_element(uint16_t list, struct nlroute_value value)
{
    value.inner = value.kind;
    value.kind = list;
    value.depth = 1;
    return value;
}

/* The two arguments octets and len, if no value refers to bytes. */
#ifdef __cplusplus
#define NLROUTE_NO_OCTETS reinterpret_cast<const uint8_t *>(""), 0
#else
#define NLROUTE_NO_OCTETS (const uint8_t *)"", 0
#endif

/*
 * Serializes count values to out, a buffer of room bytes: the attributes, in order, each with the elements that
 * follow it. Values may refer to the len bytes at octets, for example to the list that they were read from. Returns
 * the number of bytes written; the rest of out is unchanged. Does not allocate.
 *
 * Only these fields of a value matter: kind, inner, form, depth, the fields that its form uses, and flags for
 * NLROUTE_FORM_UNKNOWN. For addresses, length is the number of octets: 6, 4 or 16; for NLROUTE_FORM_BRIDGE_ID it is
 * 8. For a flag that may have no payload, it is 0, and number is 1; or it is 1. Of other booleans it does not matter.
 * For other values, length and offset matter if the form refers to bytes. The number of a list does not matter,
 * nor does inner in a list of addresses or an array of numbers: elements are written in order. A name in a struct
 * can_bittiming_const is written as nlroute_rewrite() writes it.
 *
 * Returns, for the first value that cannot be written, the first of these that applies:
 * - NLROUTE_BAD_ELEMENT if depth is not 0, and it does not follow a list of the same kind, or depth is not 1;
 * - NLROUTE_BAD_FORM if form is neither that of its attribute type nor NLROUTE_FORM_OF_KIND, or if the type is not
 *   known and form is not NLROUTE_FORM_UNKNOWN;
 * - NLROUTE_BAD_NUMBER if its attribute cannot hold number or second (for a VLAN protocol, number is 0x8100 or
 *   0x88A8); or if the type is not known, and it has more than 14 bits or flags has others than those two;
 * - NLROUTE_BAD_OCTETS if length is wrong, or len is less than offset + length;
 * - NLROUTE_TOO_LONG if its payload would have more than 65531 bytes.
 * The values are checked in order, except that a list is found to be too long after its elements: if one of them cannot
 * be written, that is the error.
 *
 * Returns NLROUTE_NO_ROOM if and only if all values can be written but the list has more than room bytes. On error
 * out is unchanged.
 */
NLROUTE_MUST_USE
ptrdiff_t nlroute_write(uint32_t family, const struct nlroute_value *values, size_t count, const uint8_t *octets,
                        size_t len, uint8_t *out, size_t room);

/*
 * Returns the number of bytes that nlroute_write() writes for these values, or its error code. If a value cannot be
 * written, stores the index of the first such value in *at, that of a list if the list is too long; otherwise *at is
 * unchanged. Does not allocate.
 *
 * Returns NLROUTE_NO_ROOM if and only if the list has more than PTRDIFF_MAX bytes.
 */
NLROUTE_MUST_USE
ptrdiff_t nlroute_measure(uint32_t family, const struct nlroute_value *values, size_t count, const uint8_t *octets,
                          size_t len, size_t *at);

/*
 * Texts. The functions below store a text as snprintf() does. The buffer `text` has room bytes; it gets the first
 * bytes of the text, at most room - 1, and a NUL after them. Its rest is unchanged, and if room is 0, nothing is
 * written. Returns the length of the whole text, without the NUL, at most PTRDIFF_MAX. None of them allocates.
 *
 * On error the buffer gets the empty text: a NUL, if room is not 0.
 *
 * You may fill in the value yourself: it need not be one that the library has stored.
 */

/* A buffer of this size holds most texts. Longer ones are of sets with many flags, and of bytes in hex. */
#define NLROUTE_TEXT_ROOM 256

/*
 * Stores the name of an attribute type: the kernel's constant, such as "IFLA_BR_FORWARD_DELAY", or "type 99" if the
 * type is not known. The fields kind, inner and depth of the value select the type; there is none at a depth greater than
 * 1. A number of an array has a place in place of a type: the name of the place, such as "rx_packets", or its index if it has
 * none: "[3]". An address of a list has an index, too. Returns no error but NLROUTE_NO_FAMILY.
 */
ptrdiff_t nlroute_kind_name(uint32_t family, const struct nlroute_value *value, char *text, size_t room);

/*
 * Stores the text of a value, as nlshow prints it after the name: "1500 (15.00 s)", "802.3ad (4)",
 * "02:00:00:00:00:01", "flags GVRP mask GVRP", "freq 8000000 Hz". For an element it is the text of the element only:
 * "120 ohm", "10.0.0.1". It is "" for a list and for NLROUTE_FORM_EMPTY, and "hex dead" for NLROUTE_FORM_UNKNOWN.
 *
 * For NLROUTE_FORM_HELD and NLROUTE_FORM_PEER it is "(24 bytes, not decoded)", as nlshow prints a list that no set reads.
 * If a set reads it, nlshow prints its attributes instead, each in a line of its own. Before those of a peer it prints fields
 * of the header, as "ifindex 0". They are no part of the text: they are in the first 16 bytes at offset.
 *
 * The text is that of what nlroute_write() writes for the value, so what it is going to write can be printed; a value
 * that it refuses has no text. The same fields matter, and NLROUTE_FORM_OF_KIND stands for the form of the attribute
 * type, but an element need not follow its list. The len bytes at octets are those that the value refers to, such as
 * the list that it was read from. A name in a struct can_bittiming_const is printed as it is there.
 *
 * Returns the first of these that applies, for a value of nlroute_values() none:
 * - NLROUTE_BAD_ELEMENT if depth is 1 and the values of type kind have no elements, or if depth is greater;
 * - NLROUTE_BAD_FORM if form is neither that of its attribute type nor NLROUTE_FORM_OF_KIND, or if the type is not
 *   known and form is not NLROUTE_FORM_UNKNOWN;
 * - NLROUTE_BAD_NUMBER if its attribute cannot hold number or second, such as 256 for IFLA_BOND_MODE; or if the type is
 *   not known, and it has more than 14 bits or flags has others than those two;
 * - NLROUTE_BAD_OCTETS if length is wrong, or len is less than offset + length;
 * - NLROUTE_TOO_LONG if its payload would have more than 65531 bytes.
 */
ptrdiff_t nlroute_text(uint32_t family, const struct nlroute_value *value, const uint8_t *octets, size_t len,
                       char *text, size_t room);

/*
 * Stores the name of the number of a value, such as "802.3ad". The fields kind, inner and depth select the attribute
 * type. Numbers of NLROUTE_FORM_NAMED have names.
 *
 * Returns NLROUTE_ABSENT if and only if the number has no name: also if depth is greater than 1, or if it is 1 and the
 * values of type kind have no elements.
 */
ptrdiff_t nlroute_number_name(uint32_t family, const struct nlroute_value *value, char *text, size_t room);

/*
 * Stores the name of a bit of the flags of an attribute type, such as "LACP_ACTIVITY" for bit 0. The fields kind,
 * inner and depth of the value select the type.
 *
 * Returns NLROUTE_ABSENT if and only if the bit has no name, as nlroute_number_name() for a number.
 */
ptrdiff_t nlroute_flag_name(uint32_t family, const struct nlroute_value *value, uint32_t bit, char *text, size_t room);

/*
 * Names and types. The functions below say what is known of attribute sets and attribute types. They do not depend on a
 * list, and do not allocate. A name is len bytes, without a NUL.
 */

/* What a number counts. Texts show the unit, as in "100 ms" and "1500 (15.00 s)". */
enum nlroute_unit {
    NLROUTE_UNIT_NONE = 0,            /* nothing: a count, a priority, a number of an enum, or no number at all */
    NLROUTE_UNIT_CLOCK_TICKS = 1,     /* 1/100 s (USER_HZ) */
    NLROUTE_UNIT_MILLISECONDS = 2,
    NLROUTE_UNIT_SECONDS = 3,
    NLROUTE_UNIT_BITS_PER_SECOND = 4,
    NLROUTE_UNIT_OHMS = 5,
    NLROUTE_UNIT_NANOSECONDS = 6,
    NLROUTE_UNIT_HERTZ = 7,
    NLROUTE_UNIT_INTERFACE_INDEX = 8, /* nothing: it is the index of a link */
    NLROUTE_UNIT_MASK = 9             /* nothing: it is a bit mask or has several parts, as a TOS; texts show it in hex */
};

/* What values of an attribute type hold, and how it is written. */
struct nlroute_row {
    uint32_t width;  /* bytes of a number of the type, or of each of its two; of an address; of a bridge ID, 8; of the
                        struct at offset. 0 if there are none, or any number. A payload may have more bytes than its
                        number: two for IFLA_BOND_SLAVE_AD_PARTNER_OPER_PORT_STATE, whose width is 1 */
    uint16_t flags;  /* flags of nla_type that nlroute_write() writes: NLA_F_NESTED for some lists; else 0 */
    uint8_t form;    /* an nlroute_form; NLROUTE_FORM_UNKNOWN if the type is not known */
    uint8_t is_list; /* 1 if elements follow, else 0 */
    uint32_t unit;   /* an nlroute_unit: what its number counts, or each of its array; of a struct, NLROUTE_UNIT_NONE */
}; /* 12 bytes, without padding */

/*
 * Stores in *row what values of type `kind` hold if depth is 0, or those of their element `inner` if depth is 1, and
 * returns 0. An address of a list or a number of an array may have any index.
 *
 * Returns NLROUTE_BAD_ELEMENT if and only if depth is 1 and the values have no elements, or if depth is greater; *row is
 * then unchanged.
 */
NLROUTE_MUST_USE
ptrdiff_t nlroute_read_row(uint32_t family, uint16_t kind, uint16_t inner, uint8_t depth, struct nlroute_row *row);

/*
 * Returns the attribute type that has a name, such as "IFLA_BR_FORWARD_DELAY", the lowest if there are several;
 * nlroute_kind_of_in() that of an element in nested lists of type `list`. Each compares the names of up to 16384 types:
 * call it once for a name.
 *
 * Returns NLROUTE_ABSENT if and only if no type has the name.
 */
NLROUTE_MUST_USE
ptrdiff_t nlroute_kind_of(uint32_t family, const char *name, size_t len);
NLROUTE_MUST_USE
ptrdiff_t nlroute_kind_of_in(uint32_t family, uint16_t list, const char *name, size_t len);

/*
 * Stores the number of an enum, the set with the bit, or the place of an array, that has a name, such as "802.3ad",
 * "LACP_ACTIVITY" or "rx_packets", in *number, and returns 0. The fields kind, inner and depth of the value select the type,
 * as for nlroute_number_name().
 *
 * Returns NLROUTE_ABSENT if and only if no number of the type has the name: also if depth is greater than 1, or if it is
 * 1 and the values of type kind have no elements. *number is then unchanged.
 */
NLROUTE_MUST_USE
ptrdiff_t nlroute_number_of(uint32_t family, const struct nlroute_value *value, const char *name, size_t len,
                            uint64_t *number);

/*
 * Stores the name of an attribute set, such as "bridge", as described under "Texts" above. nlroute_family_of() returns
 * the number of the set with a name, or NLROUTE_NO_FAMILY if there is none. The programs take these names.
 */
ptrdiff_t nlroute_family_name(uint32_t family, char *text, size_t room);
NLROUTE_MUST_USE
ptrdiff_t nlroute_family_of(const char *name, size_t len);

/*
 * Return the number of the attribute set of the devices, or of the ports, of a kind, such as "bond"; NLROUTE_NO_FAMILY if
 * there is none. For devices, kind is the text of IFLA_INFO_KIND, and the set is that of IFLA_INFO_DATA; for ports, these
 * are IFLA_INFO_SLAVE_KIND and IFLA_INFO_SLAVE_DATA. A NUL at the end of the attribute is not part of the text.
 */
NLROUTE_MUST_USE
ptrdiff_t nlroute_from_info_kind(const char *kind, size_t len);
NLROUTE_MUST_USE
ptrdiff_t nlroute_from_port_kind(const char *kind, size_t len);

/* Stores what nlroute_refusal_text() returns, as described under "Texts" above: for programs that load the library. */
ptrdiff_t nlroute_code_text(ptrdiff_t code, char *text, size_t room);

/* Checks. These functions look at a list without its values. */

/*
 * Checks whether a list is canonical: then nlroute_rewrite() outputs the same bytes. Returns false if the input is
 * malformed, or if family is not one of enum nlroute_family. Does not allocate.
 */
NLROUTE_MUST_USE
bool nlroute_is_canonical(uint32_t family, const uint8_t *bytes, size_t len);

/* The part of a list, or of a message, that is malformed. */
enum nlroute_place {
    NLROUTE_FRAME = 0,           /* the TLV framing of an attribute of the list: its header or its length */
    NLROUTE_PAYLOAD = 1,         /* the payload of an attribute */
    NLROUTE_ELEMENT_FRAME = 2,   /* the TLV framing of an element of an attribute's nested list or address list */
    NLROUTE_ELEMENT_PAYLOAD = 3, /* the payload of an element of a nested list */
    NLROUTE_MESSAGE_HEADER = 6,  /* the struct nlmsghdr of a message */
    NLROUTE_LINK_HEADER = 7      /* the struct ifinfomsg of a message about a link */
};

/* In parentheses: the first and the second number, in bytes. */
enum nlroute_cause {
    NLROUTE_SHORT_FRAME = 1,   /* fewer bytes are left than a header has: four, or 16 of a message (bytes left; 0) */
    NLROUTE_SMALL_LENGTH = 2,  /* nla_len or nlmsg_len is less than that (this length; 0) */
    NLROUTE_OVERRUN = 3,       /* nla_len or nlmsg_len is greater than the number of bytes left (this length; bytes
                                  left) */
    NLROUTE_WRONG_LENGTH = 4,  /* the payload's length is wrong (the correct length or, for an array of numbers, the
                                  size of one element, which must divide the length; the payload's length) */
    NLROUTE_TOO_SHORT = 5,     /* the payload is too short (the minimum length; the payload's length); of a message, with
                                  its header (32; nlmsg_len) */
    NLROUTE_ADDRESS_LENGTH = 6 /* an address has neither 4 nor 16 bytes (its length; 0); no list of these sets has it */
};

/* The first error of a list, or the error of a message. */
struct nlroute_fault {
    uint64_t at;     /* byte offset, in the list, of the attribute that has the error; of a message, in the buffer */
    uint64_t first;  /* the cause's first number */
    uint64_t second; /* the cause's second number, or 0 */
    uint32_t place;  /* the part that is malformed: an nlroute_place */
    uint32_t kind;   /* attribute type (nla_type) without flags; 0 for NLROUTE_FRAME and messages */
    uint32_t inner;  /* type of the list element without flags; 0 unless NLROUTE_ELEMENT_PAYLOAD */
    uint32_t cause;  /* an nlroute_cause */
}; /* 40 bytes, without padding */

/*
 * Stores the first decode error of a list in *fault, and returns 0. Does not allocate.
 *
 * Returns NLROUTE_ABSENT if and only if the list has no error; *fault is then unchanged.
 */
NLROUTE_MUST_USE
ptrdiff_t nlroute_first_fault(uint32_t family, const uint8_t *bytes, size_t len, struct nlroute_fault *fault);

/*
 * Stores the text of an error, as nlshow prints it: "error at 8: IFLA_BR_HELLO_TIME has 3 bytes, expected 4", or of a
 * message "error at 0: nlmsg_len 8 is below 16". Stored and returned as described under "Texts" above. Does not allocate.
 *
 * Returns NLROUTE_BAD_FORM if and only if place is not one of enum nlroute_place, cause not one of enum nlroute_cause,
 * or kind or inner greater than 65535, or likewise first, for NLROUTE_SMALL_LENGTH and NLROUTE_OVERRUN. For places of
 * messages, if and only if place and cause, and first for NLROUTE_TOO_SHORT, are none of those that
 * nlroute_message_fault() stores, or first is greater than 2^32 - 1 for the same two. Never for a struct that
 * nlroute_first_fault() or nlroute_message_fault() stored.
 */
ptrdiff_t nlroute_fault_text(uint32_t family, const struct nlroute_fault *fault, char *text, size_t room);

/*
 * Messages: those of a buffer, such as recvmsg() fills, and the lists in one about a link. These functions do not
 * allocate. Numbers in messages are read as little-endian.
 */

/* A message. The fields from index to address_family are those of its struct ifinfomsg; they are 0 if it has none. */
struct nlroute_message {
    uint64_t list;      /* where its attributes start in the buffer, in bytes; of a message without a struct ifinfomsg,
                           where its payload starts */
    uint64_t length;    /* length of the attributes, or of the payload, in bytes */
    uint64_t next;      /* where the next message starts in the buffer */
    uint32_t len;       /* nlmsg_len */
    uint32_t sequence;  /* nlmsg_seq */
    uint32_t port;      /* nlmsg_pid */
    uint16_t type;      /* nlmsg_type */
    uint16_t flags;     /* nlmsg_flags */
    int32_t index;      /* ifi_index */
    uint32_t link_flags;
    uint32_t change;    /* ifi_change */
    uint16_t link_type; /* ifi_type */
    uint8_t address_family; /* ifi_family */
    uint8_t is_link;    /* 1 if it has a struct ifinfomsg: RTM_NEWLINK, RTM_DELLINK, RTM_GETLINK, RTM_SETLINK,
                           RTM_NEWLINKPROP, RTM_DELLINKPROP, RTM_GETLINKPROP; else 0 */
}; /* 56 bytes, without padding */

/*
 * Stores the message at offset `at` of a buffer in *message, and returns 0. Start at 0, and go on at message->next. An
 * NLMSG_DONE or NLMSG_ERROR is a message like others. The attributes are not checked: nlroute_first_fault() finds an error
 * in them, and its offset plus message->list is the offset in the buffer.
 *
 * On error *message is unchanged. Returns
 * - NLROUTE_ABSENT if and only if `at` is len or greater;
 * - NLROUTE_HAS_FAULT if and only if the message is malformed: its nlmsg_len, or it is one of the seven types above, but
 *   shorter than the two headers. nlroute_message_fault() says why. After the second, go on at `at` plus nlmsg_len,
 *   rounded up to a multiple of four.
 */
NLROUTE_MUST_USE
ptrdiff_t nlroute_read_message(const uint8_t *bytes, size_t len, size_t at, struct nlroute_message *message);

/*
 * Stores in *fault why nlroute_read_message() returns NLROUTE_HAS_FAULT, and returns 0. at is that of the message.
 *
 * Returns NLROUTE_ABSENT if and only if nlroute_read_message() does not return NLROUTE_HAS_FAULT; *fault is then unchanged.
 */
NLROUTE_MUST_USE
ptrdiff_t nlroute_message_fault(const uint8_t *bytes, size_t len, size_t at, struct nlroute_fault *fault);

/* Bytes of an input. */
struct nlroute_range {
    uint64_t offset; /* in bytes */
    uint64_t length; /* in bytes */
}; /* 16 bytes, without padding */

/*
 * Finds the last list of the set `family` in a message, at any depth. For NLROUTE_BOND, that is IFLA_INFO_DATA in an
 * IFLA_LINKINFO with the IFLA_INFO_KIND "bond". The input is message->length bytes from message->list on, and address_family that of the message.
 * Stores where the list is in the input in *held, and returns 0.
 *
 * Linux takes the last attribute of a type, and so does this call, except that an attribute that does not decode, or whose
 * set is another one, does not count. The list itself is not checked.
 *
 * Returns NLROUTE_ABSENT if and only if there is no such list; *held is then unchanged.
 */
NLROUTE_MUST_USE
ptrdiff_t nlroute_held(const uint8_t *list, size_t len, uint8_t address_family, uint32_t family,
                       struct nlroute_range *held);

/*
 * Returns which of enum nlroute_family reads the list in a value: one of NLROUTE_FORM_HELD, NLROUTE_FORM_PEER (from its
 * byte 16 on) or NLROUTE_FORM_UNKNOWN. `family` is the set of the list that has the value, and the input is this list.
 * address_family is that of the message or, in the list of an NLROUTE_FORM_PEER, the first byte of that value. For a list in
 * an IFLA_LINKINFO, the kinds next to it tell the set. So all lists of a message can be visited, from NLROUTE_LINK on.
 *
 * Of the value, kind, inner, form, depth, flags and, for an element, offset matter.
 *
 * Returns NLROUTE_ABSENT if and only if no set reads the value.
 */
NLROUTE_MUST_USE
ptrdiff_t nlroute_opens(uint32_t family, uint8_t address_family, const struct nlroute_value *value, const uint8_t *list,
                        size_t len);

/*
 * Writes the output of the program `nlroute FAMILY` to out, a buffer of room bytes, and its exit status to *status. The
 * input is the len bytes at text: hex digits, case-insensitive; space, tab, CR and LF are ignored. Returns the length
 * of the output; no NUL is appended, and the rest of out is unchanged.
 *
 * The status is
 * - 0 if the list was re-encoded;
 * - 1 if it is malformed;
 * - 2 if len is greater than 262144 or the input is not hex;
 * - 3 if a value does not fit.
 *
 * With every status, the output is written and its length is returned.
 *
 * Unless an allocation fails, returns NLROUTE_NO_ROOM if and only if the output has more than room bytes.
 */
NLROUTE_MUST_USE
ptrdiff_t nlroute_report(uint32_t family, const uint8_t *text, size_t len, uint8_t *out, size_t room, uint8_t *status);

#ifdef __cplusplus
}
#endif

#endif
