"""The attribute types of each set, by name and by number."""
from __future__ import annotations

import re
from typing import Any

from ._kinds import SETS, Family, Form
from ._records import head
from ._types import Attribute, Row

# An attribute type as `nlshow` prints it if it is not known.
UNKNOWN_NAME = re.compile(r"type (0|[1-9][0-9]*)", re.ASCII)


class Table:
    """The attribute types of a set or, with `list_row`, the elements of one of its lists."""

    def __init__(self, family: Family, rows: tuple[Row, ...], list_row: Row | None = None):
        self.family = family
        self.list_row = list_row
        self.title = list_row.name if list_row else family.name
        self.list_kind = list_row.kind if list_row else None
        self.by_kind = {row.kind: row for row in rows}
        self.by_name = {row.name: row for row in rows}
        self.holders = {row.name for row in rows if row.form in (Form.HELD, Form.PEER)}  # of lists of other sets
        self.below = {row.kind: Table(family, row.elements, row) for row in rows if row.elements}
        # To read fast: attributes by both numbers of `_records.HEAD`, and the names of plain numbers by the first one.
        self.numbers: dict[int, str] = {}
        self.ready: dict[Any, Attribute] = {}  # by the numbers of HEAD
        for row in rows:
            self.add_fast(row)

    def add_fast(self, row: Row) -> None:
        """Stores what is needed to read a value of this row fast, if its form allows that."""
        first = head(row.kind, row.form, self.list_kind)
        if row.form == Form.UNSIGNED:
            self.numbers[first] = row.name
        elif row.form == Form.BOOL and not row.optional:
            self.ready |= {(first, number): Attribute(row.name, bool(number)) for number in (0, 1)}
        elif row.form in (Form.NAMED, Form.FLAGS) and row.type:
            members: Any = row.type
            self.ready |= {(first, int(member)): Attribute(row.name, member) for member in members}

    def name(self, kind: int) -> str:
        """Returns the name of an attribute type."""
        row = self.by_kind.get(kind)
        return row.name if row else f"type {kind}"

    def row(self, name: str) -> Row:
        """Returns the row of a name, which may be that of an unknown type. Raises KeyError."""
        row = self.by_name.get(name)
        if row:
            return row
        if not isinstance(name, str):
            raise TypeError(f"the name of an attribute is a str, not {name!r}")
        number = UNKNOWN_NAME.fullmatch(name)
        if number and int(number[1]) not in self.by_kind:
            return Row(str(name), int(number[1]), Form.UNKNOWN)
        raise KeyError(f"{self.title} has no {name}")

    def nested(self, name: str) -> Table:
        """Returns the elements of a nested list. Raises KeyError."""
        table = self.below.get(self.row(name).kind)
        if not table:
            raise KeyError(f"{name} is not a nested list")
        return table


TABLES = {family: Table(family, rows) for family, rows in SETS.items()}
