"""The names of C++ as they are written, from the names that the compiler gives its symbols (the Itanium ABI's mangling, as far as firmware
has it)."""

from __future__ import annotations

import functools
from typing import List, Optional

BUILTIN = dict(zip("vwbcahstijlmxynofdegz", (
    "void", "wchar_t", "bool", "char", "signed char", "unsigned char", "short", "unsigned short", "int", "unsigned int", "long",
    "unsigned long",
    "long long", "unsigned long long", "__int128", "unsigned __int128", "float", "double", "long double", "__float128", "...")))
OPERATORS = {
    "nw": "new", "na": "new[]", "dl": "delete", "da": "delete[]", "pl": "+", "mi": "-", "ml": "*", "dv": "/", "rm": "%", "eo": "^",
    "an": "&",
    "or": "|", "co": "~", "aS": "=", "pL": "+=", "mI": "-=", "mL": "*=", "dV": "/=", "rM": "%=", "eO": "^=", "aN": "&=", "oR": "|=",
    "ls": "<<",
    "rs": ">>", "lS": "<<=", "rS": ">>=", "eq": "==", "ne": "!=", "lt": "<", "gt": ">", "le": "<=", "ge": ">=", "nt": "!", "aa": "&&",
    "oo": "||",
    "pp": "++", "mm": "--", "cm": ",", "pt": "->", "cl": "()", "ix": "[]", "ps": "+", "ng": "-", "ad": "&", "de": "*"}
STANDARD = {"St": "std", "Sa": "std::allocator", "Ss": "std::string"}
SIGNS = {"ad": "&", "de": "*", "ng": "-", "ps": "+", "nt": "!", "co": "~"}  # operators of one operand, in expressions
SPECIAL = {"TV": "vtable for ", "TI": "typeinfo for ", "TS": "typeinfo name for ", "GV": "guard variable for "}


HOLE = "@"


class Unknown(Exception):
    """A name that isn't read."""


def filled(kind: str) -> str:
    return kind.replace(f" ({HOLE})(", " (").replace(f" ({HOLE}) [", " [").replace(HOLE, "")


class Reader:
    """Reads one mangled name from its second letter on."""

    def __init__(self, text: str) -> None:
        self.text, self.at = text, 2
        self.held: List[str] = []
        self.arguments: List[str] = []

    def has(self, start: str) -> bool:
        if not self.text.startswith(start, self.at):
            return False
        self.at += len(start)
        return True

    def peek(self) -> str:
        return self.text[self.at:self.at + 1]

    def number(self) -> Optional[int]:
        begin = self.at
        while self.peek().isdigit():
            self.at += 1
        return int(self.text[begin:self.at]) if self.at > begin else None

    def source_name(self) -> str:
        length = self.number()
        if length is None or self.at + length > len(self.text):
            raise Unknown
        name = self.text[self.at:self.at + length]
        self.at += length
        return "(anonymous namespace)" if name.startswith("_GLOBAL_") else name

    def hold(self, name: str) -> str:
        self.held.append(name)
        return name

    def substitution(self) -> str:
        """What `S_`, `S0_`, .. stand for, or a name of the standard library."""
        start = self.text[self.at:self.at + 2]
        if start in STANDARD:
            self.at += 2
            return STANDARD[start]
        self.at += 1
        begin = self.at
        while self.peek() not in ("_", ""):
            self.at += 1
        digits = self.text[begin:self.at]
        self.at += 1
        place = int(digits, 36) + 1 if digits else 0
        if place >= len(self.held):
            raise Unknown
        return self.held[place]

    def parameter(self) -> str:
        """An argument of the template by `T_`, `T0_`, .."""
        self.at += 1
        place = self.number()
        self.at += 1
        place = 0 if place is None else place + 1
        return self.arguments[place] if place < len(self.arguments) else "auto"

    def unqualified(self, last: str) -> str:
        """One part of a name; the part before it names a constructor's class."""
        if self.peek().isdigit():
            return self.source_name()
        if self.has("Ul"):
            kinds = self.types_up_to_end()
            place = self.number()
            self.at += 1
            return f"{{lambda({kinds})#{1 if place is None else place + 2}}}"
        if self.peek() in "CD" and self.text[self.at + 1:self.at + 2] in tuple("0123"):
            name = ("~" if self.peek() == "D" else "") + last.partition("<")[0]
            self.at += 2
            return name
        if self.has("L"):
            return self.source_name()
        if self.has("li"):
            return f'operator"" {self.source_name()}'
        operator = OPERATORS.get(self.text[self.at:self.at + 2])
        self.at += 2
        if self.text[self.at - 2:self.at] == "cv":
            return f"operator {self.type()}"
        if operator is None:
            raise Unknown
        return f"operator{' ' if operator[0].isalpha() else ''}{operator}"

    def types_up_to_end(self) -> str:
        kinds = []
        while not self.has("E"):
            kinds.append(self.type())
        return "" if kinds == ["void"] else ", ".join(kinds)

    def end_of_part(self) -> None:
        if not self.has("E"):
            raise Unknown

    def literal(self) -> str:
        """A number, or the name of a function or an object, whose `L` was read."""
        if self.has("_Z"):
            named = without_parameters(self.encoding())
            self.end_of_part()
            return named
        kind, begin = self.type(), self.at
        self.at = self.text.index("E", self.at)
        value = self.text[begin:self.at].replace("n", "-")
        self.at += 1
        return {"0": "false", "1": "true"}.get(value, value) if kind == "bool" else value

    def expression(self) -> str:
        """An expression of constants, types and parameters, as templates have it."""
        if self.has("L"):
            return self.literal()
        if self.peek() == "T":
            return self.parameter()
        if self.peek().isdigit():
            return self.source_name()
        code = self.text[self.at:self.at + 2]
        self.at += 2
        if code == "fp":
            place = self.number()
            self.at += 1
            return f"{{parm#{1 if place is None else place + 2}}}"
        if code in ("st", "sz"):
            return f"sizeof({self.type() if code == 'st' else self.expression()})"
        if code == "cv":
            return f"({self.type()}){self.expression()}"
        if code in ("dt", "pt"):
            return f"{self.expression()}{'.' if code == 'dt' else '->'}{self.unqualified('')}"
        if code == "sr":
            return f"{self.type()}::{self.unqualified('')}"
        if code == "cl":
            called, given = self.expression(), []
            while not self.has("E"):
                given.append(self.expression())
            return f"{called}({', '.join(given)})"
        if code in SIGNS:
            return SIGNS[code] + self.expression()
        if code in OPERATORS:
            return f"{self.expression()} {OPERATORS[code]} {self.expression()}"
        raise Unknown

    def template(self) -> str:
        """The arguments of a template, whose `I` was read."""
        found = []
        while not self.has("E"):
            if self.has("L"):
                found.append(self.literal())
            elif self.has("X"):
                found.append(self.expression())
                self.end_of_part()
            elif self.has("J") or self.has("I"):
                found.append(self.types_up_to_end())
            else:
                found.append(self.type())
        self.arguments = found
        return f"<{', '.join(it for it in found if it)}>"

    def nested(self) -> str:
        self.end = ""
        while self.peek() in ("K", "V", "r", "R", "O"):
            self.end = " const" if self.peek() == "K" else self.end
            self.at += 1
        name, last = "", ""
        while not self.has("E"):
            if self.has("I"):
                name += self.template()
            elif self.peek() == "S":
                name = last = self.substitution()
                last = last.rpartition("::")[2]
                continue
            elif self.peek() == "T":
                name = last = self.parameter()
            else:
                last = self.unqualified(last)
                name = f"{name}::{last}" if name else last
            if self.peek() != "E":
                self.hold(name)
        return name

    def local(self) -> str:
        """A name within a function."""
        outer = self.encoding()
        self.end_of_part()
        if self.has("s"):
            return outer
        inner = self.name()
        if self.has("_"):
            self.number()
        return f"{outer}::{inner}"

    def name(self) -> str:
        if self.has("N"):
            return self.nested()
        if self.has("Z"):
            return self.local()
        if self.peek() == "S" and not self.text.startswith("St", self.at):
            name = self.substitution()
        else:
            name = ("std::" if self.has("St") else "") + self.unqualified("")
            if self.peek() == "I":
                self.hold(name)
        return name + self.template() if self.has("I") else name

    def type(self) -> str:
        arguments = self.arguments  # those of the function, which a type's own ones don't replace
        found = filled(self.hole_type())
        self.arguments = arguments
        return found

    def hole_type(self) -> str:
        """A type; one of a function or an array has a hole where the sign of a pointer to it stands."""
        letter = self.peek()
        for sign, text in (("P", "*"), ("R", "&"), ("O", "&&"), ("K", " const"), ("V", " volatile")):
            if self.has(sign):
                inner = self.hole_type()
                return self.hold(inner.replace(HOLE, text.strip() + HOLE, 1) if HOLE in inner else inner + text)
        if self.has("F"):
            result = self.type()
            return self.hold(f"{result} ({HOLE})({self.types_up_to_end()})")
        if self.has("A"):
            count = self.number()
            self.at += 1
            return self.hold(f"{self.type()} ({HOLE}) [{count if count is not None else ''}]")
        if self.has("M"):
            of, inner = self.type(), self.hole_type()
            return self.hold(inner.replace(HOLE, f"{of}::*{HOLE}", 1) if HOLE in inner else f"{inner} {of}::*")
        if letter == "T":
            name = self.hold(self.parameter())
            return self.hold(name + self.template()) if self.has("I") else name
        if letter == "S" and not self.text.startswith("St", self.at):
            name = self.substitution()
            return self.hold(name + self.template()) if self.has("I") else name
        if self.has("Dp"):
            return self.type()
        if self.has("Dn"):
            return "decltype(nullptr)"
        if self.has("Da"):
            return "auto"
        if self.has("DT") or self.has("Dt"):
            found = self.hold(f"decltype({self.expression()})")
            self.end_of_part()
            return found
        if letter in BUILTIN and letter:
            self.at += 1
            return BUILTIN[letter]
        return self.hold(self.name())

    def encoding(self) -> str:
        """A name, and the types of its parameters where it is a function's."""
        for start, text in SPECIAL.items():
            if self.has(start):
                return text + (self.name() if start == "GV" else self.type())
        self.end = ""
        name = self.name()
        end, is_template = self.end, name.endswith(">") and not name.endswith("operator>")
        kinds = []
        while self.peek() not in ("", "E", "."):
            kinds.append(self.type())
        result = ""
        if is_template and len(kinds) > 1:  # a function that a template makes has its result's type first
            result, kinds = kinds[0] + " ", kinds[1:]
        return f"{result}{name}({'' if kinds == ['void'] else ', '.join(kinds)}){end}" if kinds else name


@functools.lru_cache(maxsize=None)
def written(symbol: str) -> Optional[str]:
    """A symbol's name as C++ has it, with the types of its parameters; None where it has none of C++, or one that isn't read."""
    if not symbol.startswith("_Z"):
        return None
    try:
        return Reader(symbol).encoding()
    except (Unknown, ValueError, IndexError, RecursionError):
        return None


def without_parameters(name: str) -> str:
    """`Button::poll` of `Button::poll(int) const`: all before the parenthesis that the last one closes."""
    name = name.removesuffix(" const")
    if not name.endswith(")"):
        return name
    depth = 0
    for at in range(len(name) - 1, -1, -1):
        depth += {")": 1, "(": -1}.get(name[at], 0)
        if depth == 0:
            return name[:at]
    return name


@functools.lru_cache(maxsize=None)
def qualified(symbol: str) -> Optional[str]:
    """A symbol's name as C++ has it, without parameters and result; None where it isn't read."""
    try:
        return Reader(symbol).name()
    except (Unknown, ValueError, IndexError, RecursionError):
        return None
