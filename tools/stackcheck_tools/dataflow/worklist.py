"""The order in which a dataflow follows what has changed."""

from __future__ import annotations

import heapq
from typing import Generic, Iterator, List, Tuple, TypeVar

T = TypeVar("T", int, Tuple[int, int])


class Worklist(Generic[T]):
    """What is still to be followed, the least first. What is pushed several times before its turn is followed once."""

    def __init__(self) -> None:
        self.left: List[T] = []

    def push(self, item: T) -> None:
        heapq.heappush(self.left, item)

    def __iter__(self) -> Iterator[T]:
        """Yields until nothing is left, what is pushed meanwhile too."""
        while self.left:
            item = heapq.heappop(self.left)
            if not self.left or self.left[0] != item:
                yield item
