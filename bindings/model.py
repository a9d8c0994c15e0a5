"""The model that the generators write from: attribute sets, attributes with their elements, enums and sets of flags.

`ask` makes it. Constants of the C API are read from its header; the rest is asked of the library:

- nlroute_read_row() has the form of an attribute type, the width of its numbers, and what they count;
- names are those of nlroute_kind_name(), nlroute_number_name() and nlroute_flag_name(), and nlroute_kind_of(),
  nlroute_kind_of_in() and nlroute_number_of() have to find what has them;
- nlroute_read_field() has the fields of structs that are bytes in C. A payload in which one byte is not zero tells their order.
- nlroute_code_text() has the meanings of error codes.

The names of variants in Rust are those of the rows in crates/, which are upstream's where that has them. Only the names of
some types and constants are chosen here: TYPES and CONSTANTS.
"""
import glob
import os
import re
from dataclasses import dataclass

from library import Value

CRATES = os.path.join(os.path.dirname(os.path.realpath(__file__)), "../crates")
HEADER = os.path.join(CRATES, "nlroute_ffi/include/nlroute.h")
# A row of `by_rows!`: `IFLA_BOND_MODE = 1, Mode: Named<BondMode>;`
ROW = re.compile(r"^ +([A-Z]\w*) = \d+(?: \| \w+)?, (\w+)(?:: .*)?;$", re.MULTILINE)
# Names of types. Otherwise the type has the name of the first attribute that has it: IFLA_BOND_MODE gives BondMode.
TYPES = {
    "IFLA_BOND_ALL_SLAVES_ACTIVE": "BondAllPortsActive",
    "IFLA_BOND_SLAVE_STATE": "BondPortState",
    "IFLA_BOND_SLAVE_MII_STATUS": "MiiStatus",
    "IFLA_BOND_SLAVE_AD_ACTOR_OPER_PORT_STATE": "LacpState",
    "IFLA_BOND_SLAVE_AD_CHURN_ACTOR_STATE": "ChurnState",
    "IFLA_BR_STP_STATE": "BridgeStpState",
    "IFLA_BR_STP_MODE": "BridgeStpMode",
    "IFLA_BR_VLAN_PROTOCOL": "VlanProtocol",
    "IFLA_BR_MCAST_ROUTER": "McastRouter",
    "IFLA_BR_MULTI_BOOLOPT": "BridgeBoolOpt",
    "IFLA_BRPORT_STATE": "BridgePortState",
    "IFLA_BRIDGE_VLAN_INFO": "BridgeVlanFlags",
    "IFLA_CAN_CTRLMODE": "CanCtrlMode",
    "IFLA_OPERSTATE": "OperState",
    "IFLA_LINKMODE": "LinkMode",
    "IFLA_EVENT": "LinkEvent",
    "IFLA_INET6_ADDR_GEN_MODE": "AddrGenMode",
    "IFLA_STATS": "LinkStats",
    "IFLA_STATS64": "LinkStats64",
    "IFLA_INET_CONF": "Ipv4Conf",
    "IFLA_INET6_CONF": "Ipv6Conf",
    "IFLA_INET6_STATS": "Ipv6Stats",
    "IFLA_INET6_ICMP6STATS": "Icmp6Stats",
    "IFLA_INET6_CACHEINFO": "Inet6CacheInfo",
    "IFLA_MAP": "LinkMap",
    "IFLA_VXLAN_PORT_RANGE": "PortRange",
}
# Names of constants. Otherwise a constant has its text in capitals, with _ for what no identifier may have.
CONSTANTS = {"802.3ad": "IEEE8023AD", "802.1Q": "IEEE8021Q", "802.1ad": "IEEE8021AD", "3_SAMPLES": "TRIPLE_SAMPLES"}
# Attribute types and elements that are tried; the numbers of the kernel's enums and bits that may have a name.
KINDS, NUMBERS, BITS = range(128), range(1 << 16), range(32)
MOST = (1 << 14) - 1
SIZES = range(1, 129)  # lengths of structs that are tried
NUMERIC = {"unsigned", "signed", "named", "flags", "masked"}
WITH_FLAGS = {"flags", "masked", "vlan_info"}


@dataclass(frozen=True)
class Name:
    """A number of an enum, or a bit of a set of flags, that has a name."""

    number: int
    text: str  # 802.3ad
    constant: str  # IEEE8023AD


@dataclass(frozen=True)
class Type:
    """An enum or a set of flags. Two attributes with the same width and names share one."""

    name: str  # BondMode
    is_flags: bool
    bits: int
    names: tuple[Name, ...]


@dataclass(frozen=True)
class StructField:
    """A field of a struct: a number."""

    name: str  # low
    offset: int
    length: int
    is_big_endian: bool


@dataclass(frozen=True)
class Struct:
    """A struct that is bytes in C. Two attributes with the same fields share one."""

    name: str  # PortRange
    size: int
    fields: tuple[StructField, ...]


@dataclass(frozen=True)
class Attribute:
    """An attribute type, or the type of an element of a list.

    A list has either `elements`, whose types differ, or one `item`: addresses, numbers or mappings, any number of them.
    The name of an item is empty if items have an index in place of an attribute type.
    """

    name: str  # IFLA_BOND_MODE
    kind: int
    form: str  # that of enum nlroute_form, in small letters: named
    bits: int | None = None  # width of the number, if the form has one
    type: Type | None = None  # for the forms named, flags, masked and vlan_info
    unit: str = "none"  # what the numbers count: that of enum nlroute_unit, in small letters
    example: str | None = None  # for numbers with a unit: how 100 is printed, such as `100 (1.00 s)`
    elements: tuple["Attribute", ...] = ()
    item: "Attribute | None" = None
    variant: str = ""  # Mode; empty for an item
    optional: bool = False  # a boolean that may have no payload, which is on without
    struct: Struct | None = None  # for bytes that are a struct
    places: Type | None = None  # of an array whose places have names: these, in order, as of an enum


@dataclass(frozen=True)
class Set:
    """An attribute set."""

    name: str  # bond_port
    number: int
    words: str  # IFLA_INFO_SLAVE_DATA of bond ports
    attributes: tuple[Attribute, ...]


@dataclass(frozen=True)
class Refusal:
    """An error code."""

    name: str  # BAD_FORM
    code: int
    text: str


@dataclass(frozen=True)
class Model:
    """What the generators write: a constant of the header is without NLROUTE_, and a form in small letters."""

    version: int
    forms: dict[str, int]
    units: dict[str, int]
    refusals: tuple[Refusal, ...]
    places: dict[str, int]
    causes: dict[str, int]
    sets: tuple[Set, ...]
    types: tuple[Type, ...]
    structs: tuple[Struct, ...]


def camel(constant):
    """Returns IFLA_BOND_AD_INFO as BondAdInfo."""
    words = constant.removeprefix("IFLA_").replace("LINKINFO", "LINK_INFO").split("_")
    return "".join(word.capitalize() for word in words)


def constant(text):
    """Returns the name of the constant for the name of a number or a bit."""
    return CONSTANTS.get(text) or re.sub(r"\W", "_", text).upper()


def enum_of(header, name, prefix="NLROUTE_"):
    """Returns the constants of an enum of the header, without the prefix, with their numbers."""
    body = re.search(rf"^enum {name} {{(.*?)^}};", header, re.MULTILINE | re.DOTALL)[1]
    return {it[1]: int(it[2]) for it in re.finditer(rf"^ +{prefix}(\w+) = (-?\d+)", body, re.MULTILINE)}


def refusals_of(library, header):
    """Returns the error codes of the header with their texts, which have to be those of nlroute_refusal_text()."""
    texts = dict(re.findall(r'^ +case NLROUTE_(\w+): return "(.*)";$', header, re.MULTILINE))
    codes = enum_of(header, "nlroute_refusal")
    for name, code in codes.items():
        same(library.code_text(code), texts[name], f"the text of {code}")
    return tuple(Refusal(name, code, texts[name]) for name, code in codes.items())


def same(found, wanted, what):
    """Ends the program if the library contradicts itself or the header."""
    if found != wanted:
        raise SystemExit(f"generate.py: {what} is {found!r}, not {wanted!r}")


def ask(library):
    """Returns the model of a library."""
    with open(HEADER, encoding="utf-8") as file:
        header = file.read()
    version = int(re.search(r"^#define NLROUTE_VERSION (0x\w+)u$", header, re.MULTILINE)[1], 16)
    if library.version() != version:
        raise SystemExit(f"generate.py: the library has the version {library.version():#08x}, nlroute.h {version:#08x}")
    forms = {name.lower(): number for name, number in enum_of(header, "nlroute_form", "NLROUTE_FORM_").items()}
    units = {name.lower(): number for name, number in enum_of(header, "nlroute_unit", "NLROUTE_UNIT_").items()}
    types, structs = {}, {}
    families = enum_of(header, "nlroute_family").items()
    words = dict(re.findall(r"^    NLROUTE_(\w+) = \d+,? /\* (.*) \*/$", header, re.MULTILINE))
    rows = variants()
    askers = {name: Asker(library, family, (forms, units), types, structs, rows) for name, family in families}
    sets = tuple(asker.set(name.lower(), words[name]) for name, asker in askers.items())
    return Model(
        version=version,
        forms=forms,
        units=units,
        refusals=refusals_of(library, header),
        places=enum_of(header, "nlroute_place"),
        causes=enum_of(header, "nlroute_cause"),
        sets=sets,
        types=tuple(types.values()),
        structs=tuple(structs.values()),
    )


def variants():
    """Returns the variants of the rows in crates/, by the constants. Rows with the same constant have the same variant."""
    found = {}
    for path in sorted(glob.glob(os.path.join(CRATES, "link_*/src/**/*.rt"), recursive=True)):
        with open(path, encoding="utf-8") as file:
            for name, variant in ROW.findall(file.read()):
                same(found.setdefault(name, variant), variant, f"the variant of {name}")
    return found


class Asker:
    """Asks for the attributes of one set. `types` has the enums and flags of all sets so far, `structs` the structs."""

    def __init__(self, library, family, numbers, types, structs, names):
        self.library, self.family, (self.forms, self.units) = library, family, numbers
        self.types, self.structs, self.variants = types, structs, names

    def set(self, name, words):
        """Returns the set with all its attributes."""
        same(self.library.family_name(self.family), (name, self.family), f"the name of the set {self.family}")
        attributes = (self.attribute(kind) for kind in KINDS)
        return Set(name, self.family, words, tuple(it for it in attributes if it))

    def row(self, kind, inner):
        """Returns the row of an attribute type or an element, or None if the library does not know it."""
        row = self.library.row(self.family, kind, inner)
        return None if row is None or row.form == self.forms["unknown"] else row

    @staticmethod
    def value(kind, inner, **fields):
        """Returns a value of an attribute type, or of an element if there is an `inner`."""
        return Value(kind=kind, inner=inner or 0, depth=int(inner is not None), **fields)

    def attribute(self, kind, inner=None):
        """Returns an attribute type, or an element of one, or None."""
        row = self.row(kind, inner)
        if not row:
            return None
        form = next(name for name, number in self.forms.items() if number == row.form)
        value = self.value(kind, inner, form=row.form)
        name = self.library.kind_name(self.family, value)
        # (an array has any place)
        is_indexed = inner is not None and self.library.kind_name(self.family, self.value(kind, MOST)).startswith("[")
        if not is_indexed:
            found = self.library.kind_of(self.family, kind, inner, name)
            same(found, kind if inner is None else inner, f"the type {name}")
        names = self.names(value, form)
        bits = 8 * row.width if form in NUMERIC or form == "vlan_info" else None
        return Attribute(
            name="" if is_indexed else name,
            kind=kind if inner is None else inner,
            form=form,
            bits=bits,
            type=self.type(name, form, bits, names),
            variant=self.variants.get(name, ""),
            unit=next(name for name, number in self.units.items() if number == row.unit),
            example=self.example(value, form),
            struct=self.struct(name, value) if form == "bytes" else None,
            # (the number of a value without a payload is 1; of other booleans, the length is not used)
            optional=form == "bool" and self.library.refuses(self.family, value),
            **(self.elements(kind) if form == "list" else {}),
        )

    def elements(self, kind):
        """Returns the elements of a list: `item` if all are alike, or `elements`."""
        first = self.attribute(kind, 0)
        if first and not first.name:
            return {"item": first, "places": self.places(kind)}
        found = tuple(it for it in (self.attribute(kind, inner) for inner in KINDS) if it)
        if [it.form for it in found] == ["qos_mapping"]:
            return {"item": found[0]}
        return {"elements": found}

    def places(self, kind):
        """Returns the places of an array, as an enum, or None if they have no names."""
        names = []
        while not (name := self.library.kind_name(self.family, self.value(kind, len(names)))).startswith("["):
            same(self.library.number_of(self.family, self.value(kind, None), name), len(names), f"the place {name}")
            names.append(Name(len(names), name, constant(name)))
        list_name = self.library.kind_name(self.family, self.value(kind, None))
        return Type(TYPES.get(list_name) or camel(list_name), False, 16, tuple(names)) if names else None

    def names(self, value, form):
        """Returns the names of the numbers or bits of an attribute type."""
        found = ()
        if form == "named":
            texts = ((number, self.number_name(value, number)) for number in NUMBERS)
            found = tuple(Name(number, text, constant(text)) for number, text in texts if text)
        elif form in WITH_FLAGS:
            texts = ((bit, self.library.flag_name(self.family, value, bit)) for bit in BITS)
            found = tuple(Name(bit, text, constant(text)) for bit, text in texts if text)
        for it in found:
            number = it.number if form == "named" else 1 << it.number
            same(self.library.number_of(self.family, value, it.text), number, f"the number {it.text}")
        return found

    def number_name(self, value, number):
        """Returns the name of a number of an enum, or None."""
        value.number = number
        return self.library.number_name(self.family, value)

    def type(self, name, form, bits, names):
        """Returns the enum or the flags of an attribute type: the one that has these names, or a new one."""
        if form != "named" and form not in WITH_FLAGS:
            return None
        key = (form in WITH_FLAGS, bits, names)
        return self.types.setdefault(key, Type(TYPES.get(name) or camel(name), *key))

    def fields(self, value, data):
        """Returns the fields of the struct that a value with these bytes holds."""
        it = Value.from_buffer_copy(value)
        it.length = len(data)
        return self.library.fields(self.family, it, data)

    def struct(self, name, value):
        """Returns the struct that the bytes of an attribute are, or None. It has the least length that has fields."""
        size = next((size for size in SIZES if self.fields(value, bytes(size))), None)
        if size is None:
            return None
        found = []
        for index, field in enumerate(self.fields(value, bytes(size))):
            same(field.form, self.forms["unsigned"], f"the form of field {index} of {name}")
            data = bytes(field.offset) + b"\1" + bytes(size - field.offset - 1)
            number = self.fields(value, data)[index].number
            is_big_endian = number != 1
            same(number, 1 << 8 * (field.length - 1) if is_big_endian else 1, f"field {index} of {name}")
            found.append(StructField(field.name.decode(), field.offset, field.length, is_big_endian))
        key = (size, tuple(found))
        return self.structs.setdefault(key, Struct(TYPES.get(name) or camel(name), *key))

    def example(self, value, form):
        """Returns how the number 100 is printed, if it is printed with a unit."""
        if form not in ("unsigned", "signed"):
            return None
        other = Value.from_buffer_copy(value)
        other.number = 100
        text = self.library.text(self.family, other)
        return text if text != "100" else None
