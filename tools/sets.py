"""The attribute sets of sets/. For each, tools/made.py writes the table and `means` in specs/, and a run.

sets/NAME.tsv has a set, or a nested list, as the contracts describe it. Write it from the kernel's headers, the
`nla_policy` and the fill function of the driver. The rows of src/ are written without it, and the prover compares the two.
Its head has the header of the file in specs/; then `set` or `list`, the path of the enum, and the prefix of the names; then
what the names of its definitions begin with, if it is not NAME, since another crate has these:

    # DSA port attributes.
    # set link_vlan_can::dsa::InfoDsa IFLA_DSA_

Each other line is an attribute type. Tabs are between its cells, of which the last may be missing:

    number      in order; then ` | NLA_F_NESTED`, if its list is written with this flag
    name        the constant in the kernel's headers
    variant     then the names that `means` has for its fields: `Conduit conduit`
    class       as in rows of src/; `none` for no value, `no row` for a type without a variant
    size        of a number with names, or a set of flags: its bytes; of a struct without a Layout: its Lengths, as `AtLeast 4`;
                of Counters: the bytes of each number, or `i32`; of a held list: its set, if its type alone says which it is
    quantity    if its number counts something
    way         `read-only`, if the kernel sends it and does not take it in a request; `write-only`, if it only takes it. The
                comment of the variant has to say the same

specs/NAME.antt of the crate is written as a whole. What it needs of an enum, a set of flags or a struct `T` is written by
hand in other files of specs/. Its name begins with words of `T`; of several, that with most is taken: hsr_protocol_names.

runs/sets/NAME has a list with each attribute type once. The bytes of each payload differ. What the programs have to print
is worked out here, from the row alone. It tells no names of flags or of places, fields of structs or elements of lists:
types with these are left out, have no flag or no place, and have runs by hand. A set all of whose types are left out has
no such run.
"""
import collections
import ipaddress
import re
import struct

PAYLOADS = "crates/link_base/specs/Payloads.antt"
LAYOUTS = "crates/link_base/specs/Forms.antt"
Row = collections.namedtuple("Row", "at number name variant fields its_class size quantity way word value")
# For each class, the word of tables, and the value that `means` gives. {n} and {bits} are the size, {0} and {1} the fields,
# and T_names stands for a definition of the T of the class.
CLASSES = {
    **{f"u{8 * n}": (f"u{8 * n}", f"Number {n} {{0}}") for n in (1, 2, 4, 8)},
    **{f"Be<u{8 * n}>": (f"u{8 * n}_be", f"Raw (bytes_be {n} {{0}})") for n in (2, 4, 8)},
    "i32": ("i32", "Integer {0}"),
    "bool": ("truth", "Boolean {0}"),
    "Option<bool>": ("flag_or_bool", "flag_value {0}"),
    "[u8; 6]": ("mac", "Raw {0}"),
    "Ipv4Addr": ("ipv4", "Raw (four_octets {0})"),
    "Ipv6Addr": ("ipv6", "Raw (sixteen_octets {0})"),
    "VlanProtocol": ("vlan_protocol", "EtherType (protocol_number {0})"),
    "Vec<u8>": ("bytes", "Raw {0}.items"),
    "Shown<Text>": ("text", "Raw {0}.items"),
    "Shown<Held>": ("held", "Raw {0}.items"),
    "Peer": ("peer", "Raw (peer_octets {0})"),
    "Vec<u16>": ("u16s", "Raw (octets_of 2 {0}.items)"),
    "Vec<u32>": ("u32s", "Raw (octets_of 4 {0}.items)"),
    "Vec<u64>": ("u64s", "Raw (octets_of 8 {0}.items)"),
    "(u32, u32)": ("pair", "Raw (octets_of 4 ({0} ∷ {1} ∷ []))"),
    "CanBitTimingConst": ("limits", "limits_value {0}"),
    "none": ("no_value", "Nothing"),
    "no row": ("", ""),
    "Named": ("u{bits}_enum T_names", "seen_value {n} (numbers_of T_names) (T_seen {0})"),
    "Coded": ("u{bits}_coded T_names", "Number {n} {0}"),
    "CodedFlags": ("u{bits}_flags T_names", "Number {n} {0}"),
    "Counters": ("u{bits}_counters T_names", "Raw (octets_of {n} {0}.items)"),
    "FlagBits": ("u{bits}_flags T_bit_names", "Number {n} (T_bits {0})"),
    "BeFlagBits": ("u{bits}_be_flags T_bit_names", "Raw (bytes_be {n} (T_bits {0}))"),
    "LowFlagBits": ("low_flags T_bit_names", "LowByte (T_bits {0})"),
    "MaskedFlags": ("masked_flags T_bit_names", "Raw (octets_of 4 (T_bits {0}.0 ∷ T_bits {0}.1 ∷ []))"),
    "Struct": ("struct_of {layout} T_fields", "Raw (packed (T_held {0}))"),
    "NestedList": ("{nested} T_rows", "Inner {nested} (map T_leaf {0}.items)"),
    "AddressList<Ipv4Addr>": ("4", "Listed (map four_octets {0}.items)"),
    "AddressList<Ipv6Addr>": ("16", "Listed (map sixteen_octets {0}.items)"),
}
# Those of classes whose numbers are signed if the size says so.
SIGNED = {"Counters": ("i32_counters T_names", "Raw (octets_by 4 (cast_unsigned w32) {0}.items)")}
# The sizes that classes can have, if these are not the bytes of a number.
SIZES = {"Struct": r"(Exactly|AtLeast|Fixed) \d+", "Counters": "[48]|i32", "Shown<Held>": r"\w*"}
# What a number counts, with the unit in documents.
UNITS = {
    "": "", "ClockTicks": "1/100 s", "Milliseconds": "ms", "Seconds": "s", "BitsPerSecond": "bit/s", "Ohms": "ohm",
    "Nanoseconds": "ns", "Hertz": "Hz", "InterfaceIndex": "", "Mask": "",
}  # fmt: skip
# What tables and values can import, in this order; the words of Payloads are added.
MODULES = {
    "std.specs.Prelude": "[] ◌∷◌ map true false",
    "std.specs.Int": "w32 cast_unsigned",
    "link_base.specs.Number": "bytes_be",
    "link_base.specs.Layout": "octets_of octets_by",
    "link_base.specs.Structs": "packed",
    "link_base.specs.Peer": "peer_octets",
    "link_base.specs.Class": "Number Integer Boolean Raw LowByte EtherType Nothing flag_value",
    "link_base.specs.Payloads": "",
    "link_base.specs.declared.rows.form.Layout.TheVariants as layouts": "layouts",
    "link_base.specs.declared.classes.lengths.Lengths.TheVariants as lengths": "lengths",
    "link_base.specs.Named": "numbers_of seen_value",
    "link_base.specs.declared.rows.label.Quantity.TheVariants": " ".join(sorted(UNITS)),
    "link_base.specs.Table": "Rows Leaf Table AttrValue Case Single Inner Listed row row_in leaf_row leaf_row_in nested_row address_row prefixed",
    "link_base.specs.IpAddress": "four_octets sixteen_octets",
    "link_base.specs.Protocol": "protocol_number",
    "link_base.specs.Default": "default_means",
}


def check(at, holds, message):
    if not holds:
        raise ValueError(f"{at}: {message}")


class Set:
    """A set or a nested list. `prefix` is what its names begin with, `types` has its attribute types, `rows` those with a
    variant; `defined` the files of the definitions of its crate, by their names."""

    def __init__(self, path, files, text_of):
        self.name, text = path[5:-4], text_of(path)
        head = re.match(r"# (.*)\n# (set|list) (\w+)::([\w:]+)::(\w+) (\w+)(?: (\w+))?\n", text)
        check(f"{path}:1", head, "it has no head with a header, then `set` or `list`, an enum, and what its names begin with")
        self.title, self.kind, self.crate, self.module, self.enum, self.prefix, defined = head.groups()
        self.folder = f"crates/{self.crate}/specs/"
        self.file = f"{self.folder}{self.name.title().replace('_', '')}.antt"
        self.table, self.means = (f"{defined or self.name}_{it}" for it in {"set": ("table", "means"), "list": ("rows", "leaf")}[self.kind])
        self.payloads = re.findall(r"^abbrev pub (\w+) : .*\bPayloads$", text_of(PAYLOADS), re.MULTILINE)
        self.layouts = re.findall(r"^layout_extent layouts\.(\w+)", text_of(LAYOUTS), re.MULTILINE)
        self.defined = {
            name: it.removeprefix(self.folder).removesuffix(".antt")
            for it in files if it.startswith(self.folder) and it != self.file
            for name in re.findall(r"^(?:\w+ )*pub (\w+) :", text_of(it), re.MULTILINE)
        }  # fmt: skip
        lines = enumerate(text.splitlines(), 1)
        self.types = [self.row(f"{path}:{at}", line) for at, line in lines if not line.startswith("#")]
        for above, it in zip(self.types, self.types[1:]):
            check(it.at, above.number < it.number, f"{it.number} is not above {above.number}")
        self.rows = [it for it in self.types if it.word]

    def row(self, at, line):
        """The attribute type of a line. What is wrong with it is a ValueError."""
        number, name, variant, its_class, size, quantity, way = (line.split("\t") + [""] * 6)[:7]
        number, _, flag = number.partition(" | ")
        variant, *fields = variant.split() or [""]
        kind, of = its_class.partition("<")[0], "".join(re.findall(r"^\w+<(\w+)>$", its_class))
        kind = its_class if its_class in CLASSES else kind
        check(at, number.isdigit() and line.count("\t") < 7, "its cells are not number, name, variant, class, size, quantity and way")
        check(at, kind in CLASSES, f"there is no class `{its_class}`")
        check(at, quantity in UNITS, f"there is no quantity `{quantity}`")
        check(at, way in ("", "read-only", "write-only"), f"there is no way `{way}`")
        word, value = SIGNED[kind] if kind in SIGNED and size == "i32" else CLASSES[kind]
        sizes = SIZES.get(kind, "[1248]" if re.search(r"\{(n|bits)\}", word + value) else "")
        layout = [f"layouts.{it}" for it in self.layouts if kind == "Struct" and of.endswith(it) and not size]
        check(at, layout or re.fullmatch(sizes, size), f"`{size}` is not a size of `{its_class}`")
        if kind == "Struct" and self.definition(of, "bit_names"):
            word = "flags_struct {layout} T_bit_names T_fields"
        told = {"n": size, "bits": 8 * int(size if size.isdigit() else 0), "nested": str(flag == "NLA_F_NESTED").lower()}
        told["layout"] = layout[0] if layout else f"(layouts.Other (lengths.{size}))"

        def found(it):
            check(at, self.definition(of, it[1]), f"specs/ has no `{it[1]}` of `{of}`")
            return self.definition(of, it[1])

        word, value = (re.sub(r"\bT_(\w+)", found, it.format("{0}", "{1}", **told)) for it in (word, value))
        first = word.partition(" ")[0]
        check(at, first in ["", "true", "false", "4", "16", *self.payloads], f"Payloads has no word `{first}`")
        check(at, not word or name.startswith(self.prefix), f"`{name}` does not begin with {self.prefix}")
        check(at, len(fields) == len({*re.findall(r"\{\d\}", value)}), f"`{variant}` has {len(fields)} names of fields")
        return Row(at, int(number), name, variant, fields, its_class, size, quantity, way, word, value)

    def definition(self, of, end):
        """The definition of a type that ends so; of several, that with most words of the type."""
        words = re.findall(r"[a-z0-9]+", re.sub(r"([A-Z])", r" \1", of).lower())
        parts = ["_".join(words[a:b]) for a in range(len(words)) for b in range(a + 1, len(words) + 1)]
        return max((f"{it}_{end}" for it in parts if f"{it}_{end}" in self.defined), key=lambda it: it.count("_"), default=None)


# ---- specs/


def bracketed(text):
    return f"({text})" if " " in text else text


def row_of_table(it, leaf):
    """A row of the table."""
    row = {"Inner": "nested_row", "Listed": "address_row"}.get(it.value.split()[0], "leaf_" * leaf + "row")
    row += f"_in {it.quantity}" * bool(it.quantity)
    return f'{row} {it.number} "{it.name}" {it.word if row == "nested_row" else bracketed(it.word)} ∷'


def clause(it, leaf, fields):
    """What follows `means` in its line for a variant."""
    value = it.value.format(*fields)
    content = value if leaf or value.startswith(("Inner", "Listed")) else f"Single {bracketed(value)}"
    return f"{bracketed(' '.join([f'infos.{it.variant}', *fields]))} = Case {it.number} {bracketed(content)}"


def imports(it, words):
    """The lines of imports for a text with these words."""
    for module, names in MODULES.items():
        names = it.payloads if module.endswith("Payloads") else names.split()
        used = [name for name in names if name in words or not name.isidentifier()]
        if used:
            yield module if " as " in module else f"{module}.{{{', '.join(used)}}}"
    own = {}
    for name in dict.fromkeys(name for name in words if name in it.defined):
        own.setdefault(it.defined[name], []).append(name)
    yield from (f"{it.crate}.specs.{file}.{{{', '.join(names)}}}" for file, names in own.items())
    enum = f"{it.crate}.specs.declared.{it.module.replace('::', '.')}.{it.enum}"
    yield from (f"{enum}.{{{it.enum}}}", f"{enum}.TheVariants as infos")


def specs(it):
    """The text of the file in specs/."""
    leaf = it.kind == "list"
    table, value = ("Rows", "Leaf") if leaf else ("Table", "AttrValue")
    rows = [row_of_table(row, leaf) for row in it.rows]
    body = f"{rows[0]} []" if len(rows) == 1 else "".join(f"\n    {row}" for row in rows) + " []"
    means = "".join(f"{it.means} {clause(row, leaf, row.fields)}\n" for row in it.rows)
    without = "".join(f". Type {row.number}, {row.name}, has no row" for row in it.types if not row.word)
    # (names of the kernel, of variants and of fields are not imported)
    pairs = [f"{row} {clause(of, leaf, ['_'] * len(of.fields))}" for row, of in zip(rows, it.rows)]
    words = re.findall(r"\w+", re.sub(r'".*?"|\binfos\.\w+', "", " ".join([*pairs, table, value, "default_means", "prefixed"])))
    return f"""\
-- {it.title}
{"".join(f"use Rattle.{line}{chr(10)}" for line in imports(it, words))}
-- one row for each attribute type{without}
abbrev pub {it.table} : {table}
{it.table} = prefixed "{it.prefix}" ({body})

-- the attribute that a value represents
abbrev pub {it.means} : {it.enum} → {value}
{means}{it.means} (infos.Other other) = default_means other
"""


# ---- comments of variants


def unlike_comments(files, text_of, ways):
    """The lines whose way is not that of the comment of the variant: path, line and message. `ways` has those of comments,
    by tables and names."""
    for path in sorted(it for it in files if re.fullmatch(r"sets/\w+\.tsv", it)):
        it = Set(path, files, text_of)
        for row in it.rows:
            said = ways.get(it.table, {}).get(row.name, "")
            if said != row.way:
                yield path, int(row.at.rpartition(":")[2]), f"of {row.name}, the comment of its variant says `{said}`"


# ---- runs/sets/


def counted(number, quantity):
    """A number in the plain form."""
    if quantity == "ClockTicks":
        return f"{number} ({number // 100}.{number % 100:02} s)"
    more = {"Mask": f"{number} ({number:#x})", "InterfaceIndex": f"ifindex {number}"}
    return more.get(quantity) or f"{number} {UNITS[quantity]}".rstrip()


def sample(it):
    """A payload for a row, and its value in the plain form, in the debug form and in a document; None if the row does not
    tell these."""

    def octets(size, first=it.number):
        return bytes((first + 17 * at) % 256 for at in range(size))

    kind, width = it.its_class.partition("<")[0], int("".join(re.findall(r"\bu(\d+)>?$", it.its_class)) or 0) // 8
    order = "big" if kind == "Be" else "little"
    if kind in ("Named", "Coded"):
        # (a number above those that have names)
        payload = octets(int(it.size), it.number % 64 + 192)
        number = str(int.from_bytes(payload, order))
        return payload, number, f"Other({number})" if kind == "Named" else number, f'{{"number":{number},"name":null}}'
    if kind == "CodedFlags":
        return bytes(int(it.size)), "0", "0", '{"number":0,"names":[]}'
    if it.its_class == "Shown<Held>":
        # (an attribute of type 16383 without a payload, if a set reads it: none has a row for that)
        payload = struct.pack("<HH", 4, 16383) if it.size else octets(5)
        plain = "\n    type 16383 (empty)" if it.size else f"({len(payload)} bytes, not decoded)"
        empty = '[{"name":"16383","value":{"type":16383,"flags":{"number":0,"names":[]},"hex":""}}]'
        return payload, plain, str([*payload]), empty if it.size else f'{{"hex":"{payload.hex()}"}}'
    if kind == "Peer":
        # (the interface index is the number of the type)
        header, held = struct.pack("<BxHiII", 0, 0, it.number, 0, 0), struct.pack("<HH", 4, 16383)
        zeros = ",".join(f'"{name}":{{"number":0,"names":[]}}' for name in ("flags", "change"))
        shown = '{"name":"16383","value":{"type":16383,"flags":{"number":0,"names":[]},"hex":""}}'
        family = '"family":{"number":0,"name":"AF_UNSPEC"},"type":{"number":0,"name":null}'
        return (
            header + held, f"ifindex {it.number}\n    type 16383 (empty)", f"Peer {{ header: {[*header]}, attributes: {[*held]} }}",
            f'{{{family},"index":{it.number},{zeros},"attrs":[{shown}]}}',
        )  # fmt: skip
    if it.its_class in ("[u8; 6]", "Vec<u8>"):
        payload = octets(6 if kind[0] == "[" else 5)
        return payload, payload.hex(":"), str([*payload]), f'"{payload.hex(":")}"'
    if kind == "Vec":
        payload = octets(2 * width)
        numbers = [int.from_bytes(payload[at : at + width], order) for at in (0, width)]
        return payload, f"{numbers[0]} {counted(numbers[1], it.quantity)}", str(numbers), str(numbers).replace(" ", "")
    if it.its_class == "Shown<Text>":
        text = f"text {it.number}"
        payload = text.encode() + b"\0"
        return payload, f'"{text}"', str([*payload]), f'"{text}"'
    if width:
        number = int.from_bytes(octets(width), order)
        return octets(width), counted(number, it.quantity), str(number), str(number)
    if kind == "i32":
        number = int.from_bytes(octets(4), order) - 2**31
        return number.to_bytes(4, order, signed=True), *[str(number)] * 3
    if kind in ("Ipv4Addr", "Ipv6Addr"):
        payload = octets(4 if kind == "Ipv4Addr" else 16)
        text = str(ipaddress.ip_address(payload))
        return payload, text, text, f'"{text}"'
    others = {
        "bool": (b"\1", "on", "true", "true"),
        "Option": (b"", "on", "None", "true"),
        "none": (b"", "", "", "true"),
        "Counters": (b"", "(empty)", "[]", "{}"),
        "VlanProtocol": (b"\x88\xa8", "802.1ad (0x88a8)", "Ieee8021Ad", '{"number":34984,"name":"802.1ad"}'),
    }
    return others.get(kind)


def run(it):
    """The text of the run."""
    parts = collections.defaultdict(str)
    left = ", ".join(row.name for row in it.rows if not sample(row))
    for row in filter(sample, it.rows):
        payload, plain, debug, value = sample(row)
        held, above = ("link", 20) if row.its_class == "Peer" else (row.size, 4)
        if row.its_class in ("Shown<Held>", "Peer") and held:
            # (behind the list: the offset of this one, and the attribute in it)
            parts["held"] += f"{held} at {len(parts['out']) // 2 + above}\n  Other(DefaultNla {{ kind: 16383, value: [] }})\n"
        parts["out"] += (struct.pack("<HH", 4 + len(payload), row.number) + payload).hex() + "00" * (-len(payload) % 4)
        parts["attr"] += f"attr {row.number} len {len(payload)}\n"
        parts["plain"] += f"  {row.name} {plain}".replace(" \n", "\n").rstrip() + "\n"
        parts["debug"] += f"  {row.variant}" + f"({debug})" * bool(debug) + "\n"
        # (octets count nothing)
        unit = f',"unit":"{UNITS[row.quantity]}"' * (value[0] != '"' and bool(UNITS[row.quantity]))
        name = row.name.removeprefix(it.prefix).lower()
        parts["json"] += "," * bool(parts["json"]) + f'{{"name":"{name}","value":{value}{unit}}}'
    digits = " ".join(re.findall("." * 8, parts["out"]))
    return f"""\
# Each attribute type of sets/{it.name}.tsv{f', but for {left}' if left else ''}. tools/made.py writes this file
program: nlshow

== the plain form
> {it.name} {digits}
{parts["plain"]}
== the debug form
arguments: --format debug
> {it.name} {digits}
{parts["debug"]}{parts["held"]}
== a document
arguments: --format json
< {it.name} {digits}
{{"line":1,"list":{{"family":"{it.name}","attrs":[{parts["json"]}]}},"ok":true}}

== written again
program: nlroute
arguments: {it.name}
< {digits}
{parts["attr"]}out {parts["out"]}
same
"""


def written(files, text_of):
    """The texts of the files that are made from sets/, by their paths. A line that is not right is a ValueError."""
    made = {}
    paths = sorted(it for it in files if re.fullmatch(r"sets/\w+\.tsv", it))
    # (nested lists first, since the tables of sets name theirs)
    for path in sorted(paths, key=lambda it: "\n# list " not in text_of(it)):
        it = Set(path, [*files, *made], lambda path: made.get(path) or text_of(path))
        made |= {it.file: specs(it)}
        made |= {f"runs/sets/{it.name}": run(it)} if it.kind == "set" and any(map(sample, it.rows)) else {}
    return made
