"""The schema of what `--json` prints, which is one of the pages, and what is wrong with a value by it."""
import json
import re
from typing import Any

from tests.support.checks import TOP, text_of

SCHEMA: dict[str, Any] = json.loads(text_of(TOP / "docs/rows.schema.json"))
TYPES: dict[str, Any] = {"object": dict, "array": list, "string": str, "integer": int, "number": (int, float)}
TYPES.update(null=type(None), boolean=bool)
KNOWN = {"$schema", "$defs", "$ref", "title", "description", "oneOf", "type", "const", "enum", "pattern", "minimum"}
KNOWN |= {"properties", "required", "additionalProperties", "items"}


def wrong(value: Any, schema: dict[str, Any] = SCHEMA, where: str = "") -> list[str]:
    """What is wrong with a value, by those words of a schema that are used here."""
    assert set(schema) <= KNOWN, "a word of a schema that this test doesn't know"
    if "$ref" in schema:
        return wrong(value, SCHEMA["$defs"][schema["$ref"].rsplit("/", 1)[1]], where)
    if "oneOf" in schema:
        found = [wrong(value, one, where) for one in schema["oneOf"]]
        return [] if found.count([]) == 1 else ["%s: none, or several, fit: %s" % (where, found)]
    names = schema.get("type", list(TYPES))
    if not isinstance(value, tuple(TYPES[name] for name in ([names] if isinstance(names, str) else names))):
        return ["%s: no %s: %r" % (where, names, value)]
    says = []
    if "const" in schema and value != schema["const"] or "enum" in schema and value not in schema["enum"]:
        says.append("%s: not among the words: %r" % (where, value))
    if "pattern" in schema and not re.search(schema["pattern"], value):
        says.append("%s: of another form: %r" % (where, value))
    if value is not None and value is not False and "minimum" in schema and value < schema["minimum"]:
        says.append("%s: too low: %r" % (where, value))
    if isinstance(value, dict):
        fields = schema["properties"]
        says += ["%s: without %s" % (where, name) for name in schema["required"] if name not in value]
        says += ["%s: with %s" % (where, name) for name in value if name not in fields]
        for name in set(fields) & set(value):
            says += wrong(value[name], fields[name], "%s.%s" % (where, name))
    if isinstance(value, list):
        says += [line for one in value for line in wrong(one, schema["items"], where + "[]")]
    return says
