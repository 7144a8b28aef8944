"""The page: one file of HTML with the program in it, which needs no server and makes no connection."""

from __future__ import annotations

import base64
import gzip
import hashlib
import os

from stackbound_ports.places import TOP, sum_of, text
from stackcheck_tools.firmware.devices import NAMES

SOURCES = os.path.join(TOP, "page")


def source_hash(content: str) -> str:
    """How a content policy names a text that it permits."""
    return "'sha256-" + base64.b64encode(hashlib.sha256(content.encode()).digest()).decode() + "'"


def page(program: str, module: str) -> str:
    """The page with the program for WebAssembly; `module` is what that was compiled from."""
    with open(program, "rb") as file:
        packed = base64.b64encode(gzip.compress(file.read(), mtime=0)).decode()
    style = text("page", "page.css")
    worker = text("runtime", "host.js") + text("page", "worker.js")
    script = text("page", "firmware.js") + text("page", "page.js")
    # scripts and styles are those of the file alone; the worker is a text of it; nothing else is loaded, and nothing is sent
    policy = ("default-src 'none'; base-uri 'none'; form-action 'none'; connect-src 'none'; worker-src blob:; "
              f"script-src {source_hash(script)} 'wasm-unsafe-eval' blob:; style-src {source_hash(style)}")
    parts = {
        "POLICY": policy, "STYLE": style, "WORKER": worker, "SCRIPT": script, "MODULE": packed, "VERSION": text("VERSION").strip(),
        "MODULE_SUM": sum_of(module), "DEVICES": "".join(f"<option>{name}</option>" for name in sorted(NAMES)),
    }
    whole = text("page", "page.html")
    for name, part in parts.items():
        whole = whole.replace(f"@{name}@", part, 1)
    return whole
