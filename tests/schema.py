"""A small validator: the part of JSON Schema (draft 2020-12) that docs/answer.schema.json uses. An unknown keyword is a fault of the schema."""
import json
import pathlib
import re

SCHEMA = json.loads((pathlib.Path(__file__).resolve().parent.parent / "docs/answer.schema.json").read_text())
TYPES = {"object": dict, "array": list, "string": str, "integer": int, "null": type(None)}
REMARKS = {"$schema", "$defs", "title", "description"}


def is_of(value, name):
    """Whether a value is of a type; true and false are no integers."""
    return isinstance(value, TYPES[name]) and not isinstance(value, bool)


def judge_type(value, names, where):
    """Of one of the types."""
    names = [names] if isinstance(names, str) else names
    return [] if any(is_of(value, name) for name in names) else [f"{where}: {value!r} is not of type {names}"]


def judge_ref(value, name, where):
    """What the definition of a name asks."""
    return faults(value, SCHEMA["$defs"][name.removeprefix("#/$defs/")], where)


def judge_one_of(value, schemas, where):
    """Of exactly one of the schemas; the faults against the one with the fewest are told."""
    found = [faults(value, schema, where) for schema in schemas]
    passed = sum(not one for one in found)
    return [] if passed == 1 else min(found, key=len) or [f"{where}: {passed} schemas fit"]


def judge_properties(value, schemas, where):
    """Each key that is there."""
    return [fault for key in value if key in schemas for fault in faults(value[key], schemas[key], f"{where}.{key}")]


def judge_items(value, schema, where):
    """Each item."""
    return [fault for index, item in enumerate(value) for fault in faults(item, schema, f"{where}[{index}]")]


JUDGES = {
    "type": judge_type,
    "$ref": judge_ref,
    "oneOf": judge_one_of,
    "properties": judge_properties,
    "items": judge_items,
    "const": lambda value, const, where: [] if value == const else [f"{where}: {value!r} is not {const!r}"],
    "enum": lambda value, values, where: [] if value in values else [f"{where}: {value!r} is none of {values}"],
    "minimum": lambda value, least, where: [] if value >= least else [f"{where}: {value} is below {least}"],
    "maximum": lambda value, most, where: [] if value <= most else [f"{where}: {value} is above {most}"],
    "pattern": lambda value, pattern, where: [] if re.search(pattern, value) else [f"{where}: {value!r} is not like {pattern}"],
    "required": lambda value, keys, where: [f"{where}: {key} is missing" for key in keys if key not in value],
}


def faults(value, schema=None, where="$"):
    """What is wrong with a value, by a schema: the whole one, unless another is given."""
    schema = SCHEMA if schema is None else schema
    wrong_type = judge_type(value, schema["type"], where) if "type" in schema else []
    if wrong_type:
        return wrong_type
    found = []
    for keyword, what in schema.items():
        if keyword == "additionalProperties":
            found += [f"{where}: {key} is not known" for key in value if key not in schema["properties"]]
        elif keyword not in REMARKS:
            found += JUDGES[keyword](value, what, where)
    return found
