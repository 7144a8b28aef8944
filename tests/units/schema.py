"""A validator of JSON Schema, of the keywords that the schemas of `stackcheck --json` and of its SARIF have."""

import json
import os
import re
from typing import Iterator

import stored

PATH = os.path.join(stored.TOP, "tools", "stackcheck_tools", "report", "stackcheck-1.schema.json")
SARIF = os.path.join(stored.TOP, "tests", "units", "sarif.schema.json")
TYPES = {"object": dict, "array": list, "string": str, "null": type(None), "boolean": bool, "integer": int}
KNOWN = {"$schema", "$id", "title", "description", "type", "properties", "required", "additionalProperties", "items", "enum", "const",
         "minimum", "pattern", "anyOf", "allOf", "if", "then", "else", "contains", "$ref", "$defs"}


def read(path=PATH):
    with open(path, encoding="utf8") as file:
        return json.load(file)


def is_of(value, name):
    return isinstance(value, TYPES[name]) and not (name == "integer" and isinstance(value, bool))


def of_object(value, schema, root, at) -> Iterator[str]:
    yield from (f"{at}: no {it}" for it in schema.get("required", ()) if it not in value)
    known = schema.get("properties", {})
    for key, it in value.items():
        if key in known:
            yield from faults(it, known[key], root, f"{at}.{key}")
        elif schema.get("additionalProperties") is False:
            yield f"{at}: field {key} is not known"


def of_array(value, schema, root, at) -> Iterator[str]:
    for number, it in enumerate(value):
        if "items" in schema:
            yield from faults(it, schema["items"], root, f"{at}[{number}]")
    if "contains" in schema and not any(not list(faults(it, schema["contains"], root, at)) for it in value):
        yield f"{at}: none is as wanted"


def of_parts(value, schema, root, at) -> Iterator[str]:
    if "anyOf" in schema and all(list(faults(value, it, root, at)) for it in schema["anyOf"]):
        yield f"{at}: none of anyOf"
    for it in schema.get("allOf", ()):
        yield from faults(value, it, root, at)
    if "if" in schema:
        yield from faults(value, schema.get("else" if list(faults(value, schema["if"], root, at)) else "then", {}), root, at)


def faults(value, schema, root, at="$") -> Iterator[str]:
    """Yields what is wrong with a value; a keyword that is not known is a fault of the schema."""
    if not set(schema) <= KNOWN:
        raise ValueError(f"keywords {set(schema) - KNOWN} are not known")
    if "$ref" in schema:
        yield from faults(value, root["$defs"][schema["$ref"].rpartition("/")[2]], root, at)
    names = schema.get("type")
    if names and not any(is_of(value, it) for it in ([names] if isinstance(names, str) else names)):
        yield f"{at}: not {names}: {value!r:.60}"
        return
    if "const" in schema and (value != schema["const"] or type(value) is not type(schema["const"])):
        yield f"{at}: not {schema['const']!r}"
    if "enum" in schema and value not in schema["enum"]:
        yield f"{at}: {value!r:.40} is not one of {schema['enum']}"
    if "minimum" in schema and is_of(value, "integer") and value < schema["minimum"]:
        yield f"{at}: {value} is too small"
    if "pattern" in schema and isinstance(value, str) and not re.search(schema["pattern"], value):
        yield f"{at}: {value!r} does not fit"
    if isinstance(value, dict):
        yield from of_object(value, schema, root, at)
    if isinstance(value, list):
        yield from of_array(value, schema, root, at)
    yield from of_parts(value, schema, root, at)


def fields(schema, root, path="") -> Iterator[str]:
    """Yields each field as a path: `bound.bytes`, `findings[].rule`."""
    if "$ref" in schema:
        schema = root["$defs"][schema["$ref"].rpartition("/")[2]]
    for part in schema.get("anyOf", ()):
        yield from fields(part, root, path)
    if "items" in schema:
        yield from fields(schema["items"], root, f"{path}[]")
    for name, it in schema.get("properties", {}).items():
        own = f"{path}.{name}" if path else name
        yield own
        yield from fields(it, root, own)
