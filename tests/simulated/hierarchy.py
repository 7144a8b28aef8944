"""Random programs of C++: class hierarchies whose virtual functions call each other, functions in tables, pointers to members.

A function calls functions at lower places of their tables alone, so that none recurs, nor do the lists of calls by place. What a call
enters depends on inputs."""

from __future__ import annotations

import random
from typing import Dict, Iterable, Iterator, List, Set, Tuple

HEAD = """\
#include <avr/io.h>
#include <avr/pgmspace.h>
#include <stdint.h>
#define HIDE __attribute__((noinline, noclone))
extern "C" void __cxa_pure_virtual() { for (;;) ; }
void operator delete(void *) { }
struct Result { uint8_t bytes[SIZE]; };
static volatile uint8_t sink;
static inline uint8_t any() { return PINC; }
static Result result(uint8_t x) { Result made; for (uint8_t i = 0; i < SIZE; i++) made.bytes[i] = x + i; return made; }
"""
# each kind of function: its result, its parameters, what stands behind them, the arguments of a call, and what a body returns
KINDS = (("void", "uint8_t x", "", "x", ""), ("uint8_t", "", "", "", "return x;"), ("Result", "uint8_t x", "", "x", "return result(x);"),
         ("void", "uint8_t x", " const", "x", ""), ("Result", "const Result &r", "", "result(x)", "return r;"),
         ("uint8_t", "uint8_t x, const uint8_t *p", "", "x, &x", "return *p;"))
FREE = 4  # functions that tables name
LEAST_WITH_OBJECTS = 2  # the least place of a function that makes objects: their constructors call what is at place 0
OPERATIONS = (("ops->run(x);", 1), ("sink += ops->get();", 2), ("((void (*)(uint8_t))pgm_read_word(&flash_table[any() % 2]))(x);", 0))
DESTRUCTOR = 2  # places that a virtual one takes, behind the functions of its root


class Class:
    """A class: its bases and whether each is virtual, the roots of its hierarchy, the functions that it has, those that it declares first,
    and those that it defines itself."""

    def __init__(self, number: int, bases: List[Tuple["Class", bool]]) -> None:
        self.name, self.bases = f"K{number}", bases
        self.roots: Set[Class] = set().union(*(it.roots for it, _ in bases)) if bases else {self}
        self.functions: Set[int] = set().union(*(it.functions for it, _ in bases)) if bases else set()
        self.own: Set[int] = set()
        self.pure: Set[int] = set().union(*(it.pure for it, _ in bases)) if bases else set()
        self.calls_in_constructor = False

    def is_concrete(self) -> bool:
        return not self.pure


class Program:
    """A program of a number."""

    def __init__(self, number: int) -> None:
        self.random = random.Random(number)
        self.kinds: List[int] = []
        self.places: List[int] = []  # of each function in the table of the class that declares it first
        self.classes: List[Class] = []
        for _ in range(self.random.randint(1, 3)):
            self.add([])
        for _ in range(self.random.randint(2, 5)):
            self.add(self.bases())
        for root in self.roots():  # each hierarchy has an object
            if not self.objects(root):
                last = self.random.choice([it for it in self.classes if root in it.roots])
                self.define(self.add([(last, False)]), 1.0)

    def roots(self) -> List[Class]:
        return [it for it in self.classes if not it.bases]

    def objects(self, root: Class) -> List[Class]:
        return [it for it in self.classes if root in it.roots and it.is_concrete()]

    def bases(self) -> List[Tuple[Class, bool]]:
        """The bases of a new class: one, two of different hierarchies, or two that share a virtual root."""
        first = self.random.choice(self.classes)
        found = [(first, not first.bases and self.random.random() < 0.5)]
        others = [it for it in self.classes if not it.roots & first.roots]
        twins = [it for it in self.classes if it is not first and it.bases == first.bases and len(it.bases) == 1 and it.bases[0][1]]
        if twins and self.random.random() < 0.7:
            found.append((self.random.choice(twins), False))
        elif others and self.random.random() < 0.4:
            found.append((self.random.choice(others), False))
        return found

    def add(self, bases: List[Tuple[Class, bool]]) -> Class:
        made = Class(len(self.classes), bases)
        for _ in range(self.random.randint(2, 4) if not bases else self.random.random() < 0.3):
            held = [self.places[it] for it in made.functions]
            self.places.append(max(held, default=-1) + (1 if not bases or made.own else 1 + DESTRUCTOR))
            made.functions.add(len(self.kinds))
            made.own.add(len(self.kinds))
            self.kinds.append(self.random.randrange(len(KINDS)))
        if not bases:
            made.pure = {it for it in made.own if self.random.random() < 0.3}
        made.calls_in_constructor = self.random.random() < 0.4
        is_diamond = len(bases) == 2 and bool(bases[0][0].roots & bases[1][0].roots)
        self.define(made, 1.0 if is_diamond or any(is_virtual for _, is_virtual in bases) else 0.4)  # virtual bases: a table of its own
        self.classes.append(made)
        return made

    def define(self, it: Class, share: float) -> None:
        """Lets a class define some of its functions, or all."""
        for number in sorted(it.functions - it.own):
            if self.random.random() < share:
                it.own.add(number)
        it.pure -= it.own if it.bases else set()

    def call(self, what: str, number: int) -> str:
        """A call of a function of an object; `what` ends with `.`, `->` or `::`."""
        result, _, _, arguments, _ = KINDS[self.kinds[number]]
        text = f"{what}f{number}({arguments})"
        return f"{text};" if result == "void" else f"sink += {text}{'.bytes[0]' if result == 'Result' else ''};"

    def member(self, root: Class, number: int, is_chosen: bool) -> str:
        """A call through a pointer to a member: a constant one, or one of two that an input chooses."""
        result, parameters, const, arguments, _ = KINDS[self.kinds[number]]
        other = self.random.choice([it for it in sorted(root.own) if self.kinds[it] == self.kinds[number]])
        chosen = f"any() & 1 ? &{root.name}::f{other} : &{root.name}::f{number}" if is_chosen else f"&{root.name}::f{number}"
        used = "" if result == "void" else "sink += "
        return (f"{{ {result} ({root.name}::*m)({parameters}){const} = {chosen}; {used}(of_{root.name}(any())->*m)({arguments})"
                f"{'.bytes[0]' if result == 'Result' else ''}; }}")

    def lower(self, numbers: Iterable[int], place: int) -> List[int]:
        """The functions at lower places."""
        return [it for it in sorted(numbers) if self.places[it] < place]

    def statements(self, it: Class, number: int, const: str) -> Iterator[str]:
        """Yields what the function of a number does in a class."""
        place = self.places[number]
        for _ in range(self.random.randint(1, 2)):
            way = self.random.randrange(8)
            own = [other for other in self.lower(it.functions, place) if not const or KINDS[self.kinds[other]][2]]
            root = self.random.choice(self.roots())
            theirs = self.lower(root.own, place)
            concrete = [other for other in self.classes if other.is_concrete()]
            operations = [text for text, least in OPERATIONS if least <= place]
            if way == 0 and own:
                yield self.call("this->", self.random.choice(own))
            elif way in (1, 2) and theirs:
                yield self.call(f"of_{root.name}(any())->", self.random.choice(theirs))
            elif way == 3 and theirs:
                yield self.member(root, self.random.choice(theirs), False)
            elif way == 4:
                yield self.random.choice(operations)
            elif way == 5 and concrete and place >= LEAST_WITH_OBJECTS:
                other = self.random.choice(concrete)
                yield f"{{ {other.name} local; keep(&local); {self.call('local.', self.random.choice(self.lower(other.functions, 1)))} }}"
            elif way == 6 and theirs:
                yield f"help_{root.name}_{self.random.choice(theirs)}(*of_{root.name}(any()), x);"
            else:
                yield "sink += x;"

    def body(self, it: Class, number: int) -> str:
        _, parameters, const, _, end = KINDS[self.kinds[number]]
        begin = "" if "uint8_t x" in parameters else "uint8_t x = r.bytes[0]; " if parameters else "uint8_t x = any(); "
        return f"{{ {begin}sink += {number}; {' '.join(self.statements(it, number, const))} {end} }}"

    def declaration(self, it: Class) -> str:
        bases = ", ".join(f"public {'virtual ' * is_virtual}{base.name}" for base, is_virtual in it.bases)
        parts = [f"struct {it.name}{' : ' if bases else ''}{bases} {{ uint8_t own_{it.name}; {it.name}();"]
        for number in sorted(it.own):
            result, parameters, const, _, _ = KINDS[self.kinds[number]]
            parts.append(f"virtual {result} f{number}({parameters}){const}{' = 0' if number in it.pure else ''};")
        parts += ["virtual ~" + it.name + "() { sink += 1; }"] if not it.bases and self.random.random() < 0.3 else []
        return " ".join([*parts, "};"])

    def constructor(self, it: Class) -> str:
        first = self.lower(it.functions, 1)
        virtual = f"uint8_t x = any(); {self.call('this->', first[0])}" if it.calls_in_constructor and not it.pure else ""
        return f"{it.name}::{it.name}() : own_{it.name}(any()) {{ {virtual} }}"

    def text(self) -> str:
        """The program's source."""
        parts = [HEAD.replace("SIZE", str(self.random.choice((1, 3, 4, 9, 12))))]
        parts += [self.declaration(it) for it in self.classes]
        parts.append("struct Ops { void (*run)(uint8_t x); uint8_t (*get)(); };\nextern const Ops *volatile ops;")
        parts.append("HIDE static void keep(void *p) { sink += (uint16_t)p; }")
        for n in range(FREE):
            parts.append(f"static void run{n}(uint8_t x) {{ sink += x + {n}; }}\nstatic uint8_t get{n}() {{ return any() + {n}; }}")
        parts.append("static const Ops table[] = { { run0, get0 }, { run1, get1 } };\nconst Ops *volatile ops = table;")
        parts.append("static void (*const flash_table[])(uint8_t) PROGMEM = { run2, run3 };")
        for root in self.roots():
            parts.append(f"HIDE static {root.name} *of_{root.name}(uint8_t number);")
            for number in sorted(root.own):
                hide = "HIDE " if self.random.random() < 0.6 else ""
                parts.append(f"{hide}static void help_{root.name}_{number}({root.name} &it, uint8_t x) {{ {self.call('it.', number)} }}")
        parts += [self.constructor(it) for it in self.classes]
        for it in self.classes:
            for number in sorted(it.own - it.pure):
                result, parameters, const, _, _ = KINDS[self.kinds[number]]
                parts.append(f"{result} {it.name}::f{number}({parameters}){const} {self.body(it, number)}")
        return "\n".join([*parts, *self.objects_text(), *self.main_text()]) + "\n"

    def objects_text(self) -> Iterator[str]:
        """Yields an object of each class that can have one, and what gives one of a hierarchy."""
        for it in self.classes:
            if it.is_concrete():
                yield f"static {it.name} object_{it.name};"
        for root in self.roots():
            chosen: Dict[str, None] = {f"&object_{it.name}": None for it in self.objects(root)}
            yield f"static {root.name} *all_{root.name}[] = {{ {', '.join(chosen)} }};"
            yield f"{root.name} *of_{root.name}(uint8_t number) {{ return all_{root.name}[number % {len(chosen)}]; }}"

    def main_text(self) -> Iterator[str]:
        yield "int main() { for (;;) { uint8_t x = any(); switch (any()) {"
        for number, (root, function) in enumerate((root, it) for root in self.roots() for it in sorted(root.own)):
            yield f"case {2 * number}: {self.call(f'of_{root.name}(x)->', function)} break;"
            yield f"case {2 * number + 1}: {self.member(root, function, self.random.random() < 0.5)} break;"
        yield "default: ops = &table[x & 1]; ops->run(x); } } }"
