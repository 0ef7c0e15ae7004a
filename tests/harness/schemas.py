#!/usr/bin/env python3
"""Judges JSON by a JSON schema, with the module jsonschema of this Python or of Debian's: schemas.py SCHEMA writes, for each line of
standard input, a JSON list of what the schema refuses in it, each with its place."""
import functools
import json
import pathlib
import shutil
import subprocess
import sys

from needs import need

DEBIANS = "/usr/bin/python3"


def has_module(python):
    knows = "from jsonschema import Draft202012Validator"
    return shutil.which(python) is not None and subprocess.run([python, "-c", knows], capture_output=True).returncode == 0


@functools.cache
def python_with_module():
    """This Python or Debian's, where the package is installed if it may be. NotThere: neither has the module."""
    if has_module(sys.executable):
        return sys.executable
    need("python3-jsonschema", (f"module jsonschema for {DEBIANS}", lambda: has_module(DEBIANS)))
    return DEBIANS


def complaints(schema, lines):
    """What the schema of a file refuses in each of these lines."""
    done = subprocess.run([python_with_module(), __file__, schema], input="".join(f"{line}\n" for line in lines).encode(), stdout=subprocess.PIPE, check=True)
    return [json.loads(told) for told in done.stdout.splitlines()]


def parts_of(schema):
    """The objects of a schema: it and all that are in it."""
    if isinstance(schema, dict):
        yield schema
    for part in schema.values() if isinstance(schema, dict) else schema if isinstance(schema, list) else ():
        yield from parts_of(part)


def names_of(schema):
    """The members and the fixed texts of a schema."""
    members = {name for part in parts_of(schema) for name in part.get("properties", {})}
    return members | {text for part in parts_of(schema) for text in [part.get("const"), *part.get("enum", [])] if isinstance(text, str)}


def objects_of(schema):
    """The members of each kind of object that has no others, and those that it must have."""
    return [(set(part["properties"]), set(part.get("required", ()))) for part in parts_of(schema) if part.get("additionalProperties") is False]


def wrongs(value, name="$"):
    """The value with one thing wrong in it, and what that is: a member that is not there, one too many, or something of another type or out
    of its range. A label may be any text."""
    yield f"{name} is an object without members", {}
    if isinstance(value, dict):
        yield f"{name} has a member too many", {**value, "frob": None}
        for key, part in value.items():
            yield f"{name}.{key} is not there", {other: value[other] for other in value if other != key}
            yield from ((told, {**value, key: wrong}) for told, wrong in wrongs(part, f"{name}.{key}"))
    elif isinstance(value, list):
        yield from ((told, [wrong, *value[1:]]) for first in value[:1] for told, wrong in wrongs(first, f"{name}[0]"))
    elif isinstance(value, int):
        yield from ((f"{name} is {wrong}", wrong) for wrong in (-1, 2**64, 0.5))
    elif isinstance(value, str) and not name.endswith((".label", ".path", ".what")):
        yield f"{name} is no such name", "?"


def main():
    from jsonschema.validators import validator_for

    schema = json.loads(pathlib.Path(sys.argv[1]).read_text())
    validator = validator_for(schema)
    validator.check_schema(schema)
    for line in sys.stdin.buffer:
        errors = validator(schema).iter_errors(json.loads(line))
        print(json.dumps([f"{error.json_path}: {error.message[:300]}" for error in errors]))


if __name__ == "__main__":
    main()
