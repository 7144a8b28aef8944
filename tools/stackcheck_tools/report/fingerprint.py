"""What stays the same of a finding while lines move: rule, cause, file, function and the text of the source line."""

from __future__ import annotations

import hashlib
from typing import Dict, Iterable, Iterator, Tuple

from stackcheck_tools.finding import Finding

DIGITS = 16


def of(it: Finding) -> str:
    """The first digits of SHA-256 over what tells a finding, whose source line counts with single spaces."""
    at = it.at()
    words = (it.rule, it.cause or "", at.file or "", at.function or "", " ".join((it.source or "").split()))
    return hashlib.sha256("\0".join(words).encode()).hexdigest()[:DIGITS]


def numbered(findings: Iterable[Finding]) -> Iterator[Tuple[Finding, str]]:
    """Yields each finding with its fingerprint; equal ones are counted behind a colon."""
    seen: Dict[str, int] = {}
    for it in findings:
        own = of(it)
        seen[own] = seen.get(own, 0) + 1
        yield it, f"{own}:{seen[own]}"
