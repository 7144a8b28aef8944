"""The search of lines, without a program: what is proposed after an answer, and what a search does whatever it is told."""

import os
import random
import tempfile
import unittest
from typing import Callable, List, Tuple

import recorded
from stored import TOP

from stackcheck_tools.analysis import explained, proposals, questions
from stackcheck_tools.analysis.dialogue import Dialogue
from stackcheck_tools.analysis.questions import Analyse, Answer, Because, Certificate, Places, Premises, Question, Refusal, Trial
from stackcheck_tools.analysis.runs import Ran, Run, Stop
from stackcheck_tools.analysis.search import search
from stackcheck_tools.analysis.settling import ROUNDS
from stackcheck_tools.analysis.state import Facts, State
from stackcheck_tools.firmware import candidates, opcodes
from stackcheck_tools.firmware.firmware import Firmware
from stackcheck_tools.home import version
from stackcheck_tools.spec.lines import Lines
from stackcheck_tools.spec.spec import KINDS, NOWHERE, PAIRS, UNASSUMED

NAMES = ("uart.elf", "reentry.elf", "virtual.elf", "moved.elf")
LISTED = ("jump", "store", "prove", "free", "never")  # lines whose places `premises` lists
MOST_QUESTIONS = 4000  # of one search, whatever it is told
ECHO = """#!/bin/sh
# answers by the words of the call and by the assumption file as it is then
[ "$1" != --version ] || {{ echo stackbound {version}; exit; }}
echo "refused 7 too-large" "$(for it in "$@"; do [ -f "$it" ] && cat "$it"; done | cksum)" "$1"
exit 10
"""


def stores_of(facts: Facts) -> List[int]:
    return [at for words in candidates.code(facts.elf) for at, opcode in words if opcodes.is_pointer_store(opcode)]


def words_of(facts: Facts) -> List[int]:
    """Words of a firmware at which something may be refused or flagged."""
    code = [at for words in candidates.code(facts.elf) for at, _ in words]
    return [*code[::7], *stores_of(facts), *candidates.indirect(facts.elf), *map(facts.device.vector_word, facts.device.vectors)]


def refusal(dice: random.Random, facts: Facts, words: List[int]) -> Refusal:
    at = facts.device.word(dice.choice(words))
    vector = dice.choice(sorted(facts.device.vectors))
    return Refusal(dice.choice((f"refused 1 unresolved-jump at {at} ijmp", f"refused 2 recursion at {at}",
                                f"refused 3 re-entry of {vector} at {at}", f"refused 4 untracked-sp at {at} out 0x3E, r29",
                                f"refused 5 unsupported at {at} opcode FFFF",
                                f"refused 6 too-deep at {at} need 5000", "refused 7 too-large nodes",
                                f"refused 8 unknown-pointer at {at} st X, r24")))


def place(dice: random.Random, facts: Facts) -> str:
    more = dice.choice((" protected 006E", " protected 006E 006F ..", " live", " moves"))
    return f"at {facts.device.word(dice.choice(stores_of(facts)))} st X, r24 in main{more}"


def no_answer(question: Question) -> Answer:
    raise AssertionError(question)


def anything(dice: random.Random, facts: Facts) -> Callable[[Question], Answer]:
    """Answers at random, whatever is asked."""
    words = words_of(facts)

    def answer(question: Question) -> Answer:
        if isinstance(question, Analyse):
            bound = dice.choice((2, 10, 300))
            is_bound = dice.random() < 0.4
            return Certificate(f"stackcert 2\nbound {bound}\nnodes 0\nwitness open\n") if is_bound else refusal(dice, facts, words)
        if isinstance(question, Premises):
            return Places(tuple(place(dice, facts) for _ in range(dice.randrange(3))))
        if isinstance(question, Trial):
            kind = dice.choice(("live", "protected", "transfer", "moved", ""))
            other = dice.choice((0x6E, dice.choice(words)))
            return Ran(dice.randrange(40), Stop(kind, dice.choice(words), other) if kind and dice.random() < 0.3 else None)
        return Certificate(question.certificate)
    return answer


class Proposals(unittest.TestCase):
    def after(self, name: str, text: str, lines: str = "") -> Tuple[str, str]:
        """The lines that are proposed after a refusal, and why."""
        facts = recorded.facts(name)
        found = proposals.for_refusal(facts, State(Lines.read(facts.device, lines).none_given()), text)
        return found.state.lines.text(), found.why

    def test_a_call_without_a_list_gets_one(self) -> None:
        text, why = self.after("pointers.elf", "refused 1 unresolved-jump at 006C icall")
        self.assertTrue(text.startswith("jump 006C "))
        self.assertIn("calls through pointers", why)

    def test_a_pointer_that_need_not_be_known_is_free(self) -> None:
        self.assertEqual(self.after("uart.elf", "refused 8 unknown-pointer at 0078 st Z, r24")[0], "free 0078\n")

    def test_a_proof_that_fails_is_taken_back(self) -> None:
        self.assertEqual(self.after("uart.elf", "refused 8 unknown-pointer at 0078 st Z, r24", "prove 0078\n")[0], "")

    def test_vectors_without_a_handler_are_left_out_where_start_up_fails(self) -> None:
        text, _ = self.after("unhandled.elf", "refused 4 untracked-sp at 0034 out 0x3E, r29")
        self.assertTrue(text and all(line.startswith("never ") for line in text.splitlines()))

    def test_nothing_helps_against_an_instruction_that_is_none(self) -> None:
        self.assertEqual(self.after("uart.elf", "refused 5 unsupported at 0078 opcode FFFF"), ("", ""))

    def test_the_same_answer_has_the_same_proposal(self) -> None:
        for name in NAMES:
            facts, dice = recorded.facts(name), random.Random(1)
            words = words_of(facts)
            for _ in range(20):
                state, text = State(Lines(facts.device)), refusal(dice, facts, words).text
                self.assertEqual(proposals.for_refusal(facts, state, text), proposals.for_refusal(facts, state, text))

    def test_given_lines_stay(self) -> None:
        """What is refused lies at the given lines too, and a `jump` line has functions that lead back. What is added hides nothing."""
        for name in NAMES:
            facts, dice = recorded.facts(name), random.Random(2)
            words, entries = words_of(facts), [it.address // 2 for it in facts.elf.code][:40]
            for _ in range(60):
                lines = Lines(facts.device)
                for _ in range(4):
                    lines = lines.give(dice.choice(words), dice.choice(("store", "prove", "free")), {1})
                for site in list(candidates.indirect(facts.elf))[:2]:
                    lines = lines.give(site, "jump", entries)
                at = dice.choice((words, [site for site, _ in lines.given]))
                found = proposals.for_refusal(facts, State(lines), refusal(dice, facts, at).text).state.lines
                self.assertEqual(found.given, lines.given)
                self.assertEqual({key: found.items[key] for key in lines.given}, dict(lines.items))
                kinds = {KINDS[kind] for _, kind in set(found.items) - set(lines.items)}
                self.assertLessEqual(kinds, {*UNASSUMED, *LISTED})

    def test_a_refusal_that_stays_is_answered_a_few_times(self) -> None:
        for name in NAMES:
            facts, dice = recorded.facts(name), random.Random(4)
            words = words_of(facts)
            for _ in range(40):
                state, text, count = State(Lines(facts.device)), refusal(dice, facts, words).text, 0
                while (more := proposals.for_refusal(facts, state, text).state).lines is not state.lines:
                    state, count = more, count + 1
                    self.assertLess(count, 6, text)


class Steps(unittest.TestCase):
    def test_lines_that_are_no_others_need_no_reason(self) -> None:
        steps: List[Because] = []
        one = Lines(recorded.facts("uart.elf").device)
        questions.run(questions.because(one, one.add(0x60, "free").drop(0x60, "free"), "nothing"), no_answer, steps)
        questions.run(questions.because(one, one.add(0x60, "free"), "something"), no_answer, steps)
        self.assertEqual([it.why for it in steps], ["something"])

    def test_each_is_told_by_what_it_added_and_took_back(self) -> None:
        facts = recorded.facts("pointers.elf")
        one, up = Lines(facts.device).add_pairs(), facts.elf.named("up")[0].address // 2
        site = next(iter(candidates.indirect(facts.elf)))
        other, none = one.drop(NOWHERE, PAIRS).add(site, "jump", {up}), Lines(facts.device).add(site, "jump", {up + 1})
        first, second = explained.steps(facts.firmware, [Because(one, other, "why"), Because(other, none, "so")])
        self.assertEqual((first.why, first.added, first.dropped), ("why", ("jump main 1 up",), ("pairs",)))
        self.assertEqual((second.added, second.dropped), ((none.line(site, "jump"),), ("jump main 1 up",)))


class Following(unittest.TestCase):
    def follows(self, steps: List[Because], begin: State, end: State) -> None:
        """No line comes or goes without a reason: each step goes on with the lines of the one before, from the first lines to the last."""
        lines = begin.lines
        for it in steps:
            self.assertEqual(it.before.items, lines.items, it.why)
            self.assertNotEqual(it.after.items, lines.items, it.why)
            self.assertRegex(it.why, r"\A\S.*\S\Z")
            lines = it.after
        self.assertEqual(lines.items, end.lines.items)


class Searches(Following):
    def test_whatever_it_is_told_a_search_ends_and_keeps_given_lines(self) -> None:
        for seed in range(24):
            dice = random.Random(seed)
            facts = recorded.facts(NAMES[seed % len(NAMES)])
            begin = State(Lines(facts.device).give(dice.choice(words_of(facts)), "store", {0xC1}))
            answer, asked, steps = anything(dice, facts), [], list[Because]()

            def counted(question: Question) -> Answer:
                asked.append(question)
                self.assertLess(len(asked), MOST_QUESTIONS)
                self.assertLessEqual(begin.lines.given, question.lines.given)
                self.assertTrue(all(question.lines.items[key] == items for key, items in begin.lines.items.items()))
                return answer(question)

            self.follows(steps, begin, questions.run(search(facts, begin), counted, steps))

    def test_refusals_without_end_are_left_after_some_rounds(self) -> None:
        for name in NAMES:
            facts, asked = recorded.facts(name), []

            def answer(question: Question) -> Answer:
                asked.append(question)
                if isinstance(question, Analyse):
                    return Refusal(f"refused 8 unknown-pointer at {facts.device.word(len(asked) % facts.device.words)} st X, r24")
                return Places(()) if isinstance(question, Premises) else Ran()

            state = questions.run(search(facts, recorded.begin(facts)), answer)
            self.assertIsNotNone(state.refusal)
            self.assertLess(len(asked), 8 * ROUNDS)

    def test_what_was_asked_aside_changes_no_answer(self) -> None:
        """Each question is asked again later, in any order: the search comes to the same lines."""
        for name in ("uart.elf", "virtual.elf"):
            table, dice, asked = recorded.read(name), random.Random(3), list[Question]()

            def answer(question: Question) -> Answer:
                asked.append(question)
                found = [(it, table.answer(it)) for it in dice.sample(asked, len(asked))]
                return next(told for it, told in found if it is question)

            facts = recorded.facts(name)
            self.assertEqual(recorded.end(questions.run(search(facts, recorded.begin(facts)), answer)), (table.lines, table.end))


class Dialogues(unittest.TestCase):
    def setUp(self) -> None:
        folder = tempfile.TemporaryDirectory()
        self.addCleanup(folder.cleanup)
        self.folder = folder.name
        path = os.path.join(self.folder, "stackbound")
        with open(path, "w", encoding="ascii") as file:
            file.write(ECHO.format(version=version()))
        os.chmod(path, 0o755)
        before = os.environ.get("STACKBOUND")
        os.environ["STACKBOUND"] = path
        self.addCleanup(lambda: os.environ.pop("STACKBOUND") if before is None else os.environ.update(STACKBOUND=before))

    def test_the_order_of_looks_changes_no_answer(self) -> None:
        """A program that answers by the file of its lines says the same to a question, whatever was asked before."""
        firmware = Firmware(os.path.join(TOP, "tests", "firmware", "uart.elf"), None)
        lines = [Lines(firmware.device).add(it, "prove") for it in range(0x60, 0x68, 2)]
        asked: List[Question] = [Analyse(it) for it in lines] + [Trial(it, Run("run", f"schedule 1\nfill {n:02X}\nend\n"))
                                                                for n, it in enumerate(lines)]
        answers = []
        for seed in range(4):
            dialogue, order = Dialogue(firmware, tempfile.mkdtemp(dir=self.folder)), random.Random(seed).sample(asked * 2, 2 * len(asked))
            told = {questions.key(it): dialogue.answer(it) for it in order}
            answers.append([told[questions.key(it)] for it in asked])
        self.assertTrue(all(it == answers[0] for it in answers))
        self.assertEqual(len({str(it) for it in answers[0][:len(lines)]}), len(lines))


    def test_a_program_keeps_its_lines(self) -> None:
        """What is asked under other lines in between changes nothing for a program that is there already."""
        firmware = Firmware(os.path.join(TOP, "tests", "firmware", "uart.elf"), None)
        dialogue, one, other = Dialogue(firmware, self.folder), *(Lines(firmware.device).add(it, "prove") for it in (0x60, 0x62))
        first, told = dialogue.program(one), dialogue.said(Analyse(one))
        self.assertNotEqual(dialogue.said(Analyse(other)), told)
        self.assertEqual(first.call("analyse"), told)


class Replayed(Following):
    def test_recorded_answers_lead_to_the_recorded_lines(self) -> None:
        for name in recorded.names():
            with self.subTest(name):
                table, facts, steps = recorded.read(name), recorded.facts(name), list[Because]()
                begin = recorded.begin(facts)
                state = questions.run(search(facts, begin), table.answer, steps)
                self.assertEqual(recorded.end(state), (table.lines, table.end))
                self.follows(steps, begin, state)


if __name__ == "__main__":
    unittest.main()
