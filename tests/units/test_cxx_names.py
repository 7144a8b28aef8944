"""Names of C++ by the compiler's names."""

import unittest

from stored import path
from stackcheck_tools.firmware import cxx_names, names
from stackcheck_tools.firmware.elf import Elf, Symbol

NAMES = (
    ("_ZN5Print5writeEPKhj", "Print::write(unsigned char const*, unsigned int)"),
    ("_ZN5Print5printEmi", "Print::print(unsigned long, int)"),
    ("_Z3addii", "add(int, int)"),
    ("_Z4initv", "init()"),
    ("_ZN7TwoWire9onReceiveEPFviE", "TwoWire::onReceive(void (*)(int))"),
    ("_ZN12_GLOBAL__N_14tickEv", "(anonymous namespace)::tick()"),
    ("_ZN3RawC1Ev", "Raw::Raw()"),
    ("_ZN3RawD2Ev", "Raw::~Raw()"),
    ("_ZNK3Raw3getEv", "Raw::get() const"),
    ("_Z3maxIiET_S0_S0_", "int max<int>(int, int)"),
    ("_ZN3RawppEv", "Raw::operator++()"),
    ("_ZZ9setup_allvENUlvE0_4_FUNEv", "setup_all()::{lambda()#2}::_FUN()"),
    ("_ZZ4bindI4LampXadL_ZNS0_5blinkEvEEEvhENKUlvE_clEv", "void bind<Lamp, &Lamp::blink>(unsigned char)::{lambda()#1}::operator()() const"),
    ("_Z7throughIXadL_Z6targethEEEvv", "void through<&target>()"),
    ("_Z3lenI5SizedEDTcldtfp_4sizeEERKT_", "decltype({parm#1}.size()) len<Sized>(Sized const&)"),
    ("_Z3oneIcEN2IfIXeqstT_Li1EES1_E4typeES1_", "If<sizeof(char) == 1, char>::type one<char>(char)"),
    ("_ZZ4mainENKUlT_E0_clIiEEDaS_", "auto main::{lambda(auto)#2}::operator()<int>(auto) const"),
    ("_Z4pickPFiicEM4Lampi", "pick(int (*)(int, char), int Lamp::*)"),
    ("_Z4callM4LampFviE", "call(void (Lamp::*)(int))"),
    ("_Z4wrapI3BoxhEvRT_IT0_E", "void wrap<Box, unsigned char>(Box<unsigned char>&)"),
    ("_Zli3_hzy", 'operator"" _hz(unsigned long long)'),
)
SHOWN = (  # without parameters, result and a clone's end
    ("_Z2goIL4Mode1EEvv", "go<1>"),
    ("_ZZ4bindI4LampXadL_ZNS0_5blinkEvEEEvhENUlvE_4_FUNEv", "void bind<Lamp, &Lamp::blink>(unsigned char)::{lambda()#1}::_FUN"),
    ("_ZNK4LampcvbEv.isra.18", "Lamp::operator bool"),
    ("main.constprop.3", "main"),
)


class Names(unittest.TestCase):
    def test_names_are_written_as_in_the_source(self) -> None:
        for mangled, wanted in NAMES:
            with self.subTest(mangled):
                self.assertEqual(cxx_names.written(mangled), wanted)

    def test_a_name_is_shown_without_parameters_and_result(self) -> None:
        for mangled, wanted in SHOWN:
            with self.subTest(mangled):
                self.assertEqual(names.shown(Symbol(mangled, 0, 2, True, "")), wanted)

    def test_a_name_that_is_not_read_has_none(self) -> None:
        for mangled in ("_Z", "_Z99short", "_ZN5PrintE_", "main"):
            with self.subTest(mangled):
                self.assertIsNone(cxx_names.written(mangled))

    def test_a_function_is_found_by_its_name(self) -> None:
        elf = Elf(path("sketch.elf"))
        methods = [it for it in elf.code if it.name.startswith("_ZN4Wire")]
        self.assertTrue(methods)
        for it in methods:
            self.assertEqual(names.function(elf, cxx_names.written(it.name) or "").address, it.address)


if __name__ == "__main__":
    unittest.main()
