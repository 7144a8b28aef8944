"""The page for readers by eye, by ear and by keyboard: contrast by the formula of WCAG 2.1 (1.4.3, 1.4.11), landmarks, headers and names."""

import html.parser
import re
import unittest
from typing import Dict, Iterator, List, NamedTuple, Optional, Tuple

import stored

stored.use_tools()
import made  # noqa: E402
from stackcheck_tools.finding import Finding  # noqa: E402
from stackcheck_tools.report import flame, page  # noqa: E402
from stackcheck_tools.report.page_style import STYLE  # noqa: E402

TEXT, GRAPHIC = 4.5, 3.0  # the least contrast of text, and of what is no text
ON_GROUNDS = (("text", "page"), ("soft", "page"), ("end", "page"), ("text", "code"), ("soft", "code"),
              *((ink, f"{colour}-back") for ink in ("text", "soft") for colour in ("green", "amber", "red")))
BESIDE = (("static", "page"), ("green", "page"), ("amber", "page"), ("red", "page"), ("static", "left"), ("green", "green-back"),
          ("amber", "amber-back"), ("red", "red-back"))


class Element(NamedTuple):
    """A tag with its attributes, the tags around it, and the parts of its text."""

    tag: str
    attributes: Dict[str, Optional[str]]
    inside: List[str]
    text: List[str]


def part(value: int) -> float:
    share = value / 255
    return share / 12.92 if share <= 0.03928 else float(((share + 0.055) / 1.055) ** 2.4)


def luminance(colour: str) -> float:
    digits = colour.lstrip("#")
    digits = digits if len(digits) == 6 else "".join(2 * it for it in digits)
    red, green, blue = (part(int(digits[at:at + 2], 16)) for at in (0, 2, 4))
    return 0.2126 * red + 0.7152 * green + 0.0722 * blue


def contrast(one: str, other: str) -> float:
    dark, light = sorted((luminance(one), luminance(other)))
    return (light + 0.05) / (dark + 0.05)


def themes() -> List[Dict[str, str]]:
    """The colours of the light page and of the dark one."""
    return [dict(re.findall(r"--([a-z-]+): (#[0-9a-f]+);", it)) for it in re.findall(r":root \{(.*?)\}", STYLE, re.S)]


class Contrast(unittest.TestCase):
    def test_text_is_readable_on_what_lies_behind_it(self) -> None:
        self.assertEqual(len(themes()), 2)
        for theme in themes():
            for ink, ground in ON_GROUNDS:
                self.assertGreaterEqual(contrast(theme[ink], theme[ground]), TEXT, f"{ink} on {ground}")

    def test_graphics_stand_out(self) -> None:
        for theme in themes():
            for colour, ground in BESIDE:
                self.assertGreaterEqual(contrast(theme[colour], theme[ground]), GRAPHIC, f"{colour} beside {ground}")

    def test_names_are_readable_in_boxes_and_boxes_stand_out(self) -> None:
        ink = re.search(r"\.in \{ fill: (#[0-9a-f]+)", STYLE)
        self.assertIsNotNone(ink)
        for colour in (*flame.CALLS, *flame.INTERRUPTS, *flame.MORE):
            self.assertGreaterEqual(contrast(ink[1] if ink else "", colour), TEXT, colour)
            for theme in themes():
                self.assertGreaterEqual(contrast(colour, theme["page"]), GRAPHIC, colour)
        for _, colour in page.KEYS:
            for theme in themes():
                self.assertGreaterEqual(contrast(colour, theme["page"]), GRAPHIC, colour)

    def test_the_formula_is_that_of_black_on_white(self) -> None:
        self.assertAlmostEqual(contrast("#000", "#ffffff"), 21)
        self.assertLess(contrast("#9aa4b2", "#fff"), GRAPHIC)


class Elements(html.parser.HTMLParser):
    """The elements of a page with their attributes and texts, in order; `faults` are tags that do not fit."""

    def __init__(self, text: str) -> None:
        super().__init__()
        self.open: List[Element] = []
        self.all: List[Element] = []
        self.faults: List[str] = []
        self.feed(text)
        self.faults += [it.tag for it in self.open]

    def handle_starttag(self, tag: str, attrs: List[Tuple[str, Optional[str]]]) -> None:
        it = Element(tag, dict(attrs), [one.tag for one in self.open], [])
        self.all.append(it)
        if tag != "meta":
            self.open.append(it)

    def handle_endtag(self, tag: str) -> None:
        if not self.open or self.open.pop().tag != tag:
            self.faults.append(f"</{tag}>")

    def handle_data(self, data: str) -> None:
        for it in self.open:
            it.text.append(data)

    def of(self, *tags: str) -> List[Element]:
        return [it for it in self.all if it.tag in tags]


class Accessible(unittest.TestCase):
    """What a reader by ear or by keyboard needs, on pages of each kind."""

    PAGES = {"accepted": made.result(made.PLACE, made.SAFE, made.REVIEWED, made.HEAP), "limit": made.result(made.LIMIT),
             "flagged": made.result(made.FLAG, made.PLACE), "quiet": made.result(),
             "refused": made.result(Finding("SB107", "error", "too large"), bound=False)}

    def pages(self) -> Iterator[Elements]:
        yield from (Elements(page.html(it)) for it in self.PAGES.values())

    def test_tags_fit_and_landmarks_stand_once(self) -> None:
        for it in self.pages():
            self.assertEqual(it.faults, [])
            self.assertEqual([one.attributes.get("lang") for one in it.of("html")], ["en"])
            self.assertEqual([len(it.of(tag)) for tag in ("main", "footer", "h1")], [1, 1, 1])
            self.assertEqual(len([one for one in it.of("title") if "head" in one.inside]), 1)
            self.assertTrue(all("main" in one.inside for one in it.of("h1", "h2", "table", "svg")))
            self.assertNotIn("main", it.of("footer")[0].inside)

    def test_headings_have_words_and_skip_no_level(self) -> None:
        for it in self.pages():
            found = it.of("h1", "h2", "h3")
            self.assertTrue(all("".join(one.text).strip() for one in found))
            levels = [int(one.tag[1]) for one in found]
            self.assertTrue(levels[0] == 1 and all(after <= before + 1 for before, after in zip(levels, levels[1:])))

    def test_tables_have_headers_that_say_of_what(self) -> None:
        for it in self.pages():
            self.assertTrue(all(one.attributes.get("scope") in ("col", "row") and "".join(one.text).strip() for one in it.of("th")))
            self.assertGreaterEqual(len(it.of("th")), len(it.of("table")))

    def test_what_is_drawn_has_a_name_and_what_scrolls_a_focus(self) -> None:
        for it in self.pages():
            drawn = [one for one in it.all if one.attributes.get("role") in ("img", "region")]
            self.assertTrue(all(one.attributes.get("aria-label") for one in drawn))
            self.assertTrue(all(one.attributes.get("role") == "img" or "figure" in one.inside for one in it.of("svg")))
            self.assertTrue(all(one.attributes.get("tabindex") == "0" and one.attributes.get("aria-label") for one in it.of("figure")))
            self.assertTrue(all(one.attributes.get("tabindex", "0") == "0" for one in it.all))

    def test_no_colour_stands_alone(self) -> None:
        """Each mark stands in a cell, an entry or a header that says in words what it means."""
        for it in self.pages():
            cells = [one for one in it.of("td") if one.attributes.get("class") == "state"]
            self.assertTrue(all("".join(one.text).strip() in ("to review", "reviewed", "no review needed") for one in cells))
            marks = [one for one in it.of("i") if one.attributes.get("class") == "mark"]
            self.assertEqual(len(marks), len(cells))
            self.assertTrue(all("".join(one.text).strip() for one in it.of("li")))

    def test_ids_are_unique_and_nothing_runs(self) -> None:
        for it in self.pages():
            ids = [one.attributes["id"] for one in it.all if "id" in one.attributes]
            self.assertEqual(len(set(ids)), len(ids))
            self.assertEqual(it.of("script", "img", "iframe", "link"), [])


class Structure(unittest.TestCase):
    def test_landmarks_and_headers(self) -> None:
        text = page.html(made.result(made.PLACE, made.SAFE, made.HEAP))
        for it in ("<main>", "</main>", "<footer>", 'role="status"', '<th scope="col">', 'tabindex="0"',
                   "<code>stackcheck &#x27;a b.elf&#x27;</code>"):
            self.assertIn(it, text)
        self.assertNotIn("<th></th>", text)

    def test_a_flagged_firmware_shows_places_first_and_no_number_in_its_box(self) -> None:
        text = page.html(made.result(made.FLAG, made.PLACE))
        self.assertLess(text.index("Where a step may be flagged"), text.index("<h2>SRAM"))
        self.assertIn("<b>No bound to rely on</b>", text)
        self.assertIn("Up to that step: 8 bytes (a run as deep is known).", text)


if __name__ == "__main__":
    unittest.main()
