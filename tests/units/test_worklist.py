"""The order in which a dataflow follows what has changed."""

import unittest

import stored

stored.use_tools()
from stackcheck_tools.dataflow.worklist import Worklist  # noqa: E402


class Order(unittest.TestCase):
    def test_the_least_comes_first_and_what_is_pushed_twice_once(self) -> None:
        left: Worklist[int] = Worklist()
        for it in (5, 2, 5, 9, 2):
            left.push(it)
        self.assertEqual(list(left), [2, 5, 9])
        self.assertEqual(list(left), [])

    def test_what_is_pushed_meanwhile_is_followed_too(self) -> None:
        left, seen = Worklist[int](), []
        left.push(3)
        for it in left:
            seen.append(it)
            for more in (1, 3) if len(seen) == 1 else ():
                left.push(more)
        self.assertEqual(seen, [3, 1, 3])


if __name__ == "__main__":
    unittest.main()
