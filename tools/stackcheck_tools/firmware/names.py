"""Functions by the names that a spec gives them: symbols, their clones, and names of C++ as they are written."""

from __future__ import annotations

import difflib
import functools
import re
from typing import List, Optional, Tuple

from stackcheck_tools.finding import Fault, Location
from stackcheck_tools.firmware.cxx_names import qualified, without_parameters, written
from stackcheck_tools.firmware.elf import Elf, Symbol

# what the compiler puts behind the name of a function that it has copied or cut
CLONE = re.compile(r"(\.(part|constprop|isra|lto_priv|cold)(\.\d+)?|\.\d+)+$")


class SpecFault(Fault):
    """A line of a spec that says nothing of this firmware, with its number where that is known."""

    rule = "SB006"

    def __init__(self, message: str, line: Optional[int] = None, rule: Optional[str] = None) -> None:
        super().__init__(message, rule, Location(line=line))


class Missing(SpecFault):
    """A function that isn't in this build."""


def base(name: str) -> str:
    """The name of the function of which a symbol is a clone, or its own."""
    return CLONE.sub("", name)


def plain(name: str) -> str:
    return re.sub(r"\s+", "", name)


def shown(symbol: Symbol) -> str:
    """A symbol's name as a reader knows it: that of C++ without parameters and result where it is one of C++, and without a clone's end."""
    own = base(symbol.name)
    return own if written(own) is None else qualified(own) or without_parameters(written(own) or own)


@functools.lru_cache(maxsize=None)
def forms(name: str) -> Tuple[str, ...]:
    """The names by which a function of C++ may be called, the exact ones first: with the types of parameters, without, and the last
    part."""
    whole = written(name)
    if whole is None:
        return ()
    whole_name = qualified(name) or whole
    last = re.sub(r"<.*>$", "", whole_name)
    last = re.split(r"::(?![^<(]*[>)])", last)[-1]
    return plain(whole), plain(whole_name), plain(re.sub(r"<.*>$", "", whole_name)), plain(last)


def near(elf: Elf, name: str) -> str:
    """What a name may have been meant for: names that are alike, in whole or in their last part."""
    known = sorted({shown(it) for it in elf.code if it.is_function and not it.name.startswith("__")})
    last_of = {it: re.split(r"::", re.sub(r"[(<].*", "", it))[-1] for it in known}
    own = re.split(r"::", re.sub(r"[(<].*", "", name))[-1]
    found = difflib.get_close_matches(name, known, 3, 0.6)
    alike = difflib.get_close_matches(own, sorted(set(last_of.values())), 2, 0.7)
    found += [it for it in known if last_of[it] in alike and it not in found]
    return f"; near: {', '.join(found[:4])}" if found else ""


def of_cxx(elf: Elf, name: str) -> List[Symbol]:
    """The symbols of C++ that are written so: in whole, without parameters, or by the last parts of their names."""
    wanted = plain(name)
    known = [(it, forms(base(it.name))) for it in elf.code if it.is_function and it.name.startswith("_Z")]
    for place in range(4):
        if found := [it for it, names in known if names and names[place] == wanted]:
            return found
    return [it for it, names in known if any(each.endswith("::" + wanted) for each in names[:3])]


def named(elf: Elf, name: str) -> Tuple[List[Symbol], List[Symbol]]:
    """The symbols that a name means, and its clones: those of this name, else those of C++ that are written so. A vector's name means its
    handler."""
    name = elf.chip.handlers.get(name, name)
    found = elf.named(name)
    file, _, own = name.rpartition(":") if "::" not in name else ("", "", name)
    clones = [it for it in elf.code if it.name != own and base(it.name) == own and (not file or it.file in (file, ""))]
    if found or clones:
        return found, clones
    found = of_cxx(elf, name)
    return [it for it in found if base(it.name) == it.name], [it for it in found if base(it.name) != it.name]


def functions(elf: Elf, name: str) -> List[Symbol]:
    """The symbols of a function: its own and its clones', one for each address."""
    own, clones = named(elf, name)
    if not own and not clones:
        raise Missing(f"there is no function {name}{near(elf, name)}")
    own_names = {written(base(it.name)) or it.name for it in own}
    if len({it.address for it in own}) > 1 and len(own_names) == 1 and len({it.file for it in own}) > 1:
        raise SpecFault(f"several functions are called {name}: write FILE:{name}, with one of "
                        f"{', '.join(sorted(it.file or '-' for it in own))}")
    if len({written(base(it.name)) for it in own}) > 1:
        raise SpecFault(f"several functions are called {name}: write one of {', '.join(sorted(written(it.name) or it.name for it in own))}")
    return list({it.address: it for it in [*own, *clones]}.values())


def function(elf: Elf, name: str) -> Symbol:
    """The one symbol of a function: its own, else its only clone."""
    found = functions(elf, name)
    own = [it for it in found if base(it.name) == it.name] or found
    if len({it.address for it in own}) > 1:
        raise SpecFault(f"several functions are called {name}: write one of {', '.join(sorted(it.name for it in own))}")
    return own[0]
