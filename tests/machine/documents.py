"""Parts of documents that a script writes: each stands between a line `<!-- SCRIPT -->` and a line `<!-- end -->`."""
import pathlib

TOP = pathlib.Path(__file__).resolve().parent.parent.parent


def renew(page: str, script: str, text: str) -> None:
    path = TOP / page
    begin, end = f"<!-- {script} -->\n", "<!-- end -->"
    front, found, rest = path.read_text(encoding="utf8").partition(begin)
    _, has_end, after = rest.partition(end)
    if not found or not has_end:
        raise ValueError(f"{page} has no part of {script}")
    path.write_text(f"{front}{begin}\n{text}\n{end}{after}", encoding="utf8")
