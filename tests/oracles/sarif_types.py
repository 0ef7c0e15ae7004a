"""SARIF 2.1.0 as a JSON schema, by the types in Go that Debian ships. They were made from the schema of OASIS: a field is a member, one that
is not omitted when empty must be there, and a constant is a name that its type allows. What the schema says besides is not in them. They are of
its draft 2.1.0-rtm.4, where a suppression has a `state`, which the standard calls its `status`."""
import functools
import json
import pathlib
import re

from needs import need

TYPES = pathlib.Path("/usr/share/gocode/src/github.com/haya14busa/go-sarif/sarif/sarif.go")
STRUCT = re.compile(r"^type (\w+) struct \{\n(.*?)^\}", re.S | re.M)
FIELD = re.compile(r'^\s+\w+\s+(\S+)\s+`json:"([^",]+)(,omitempty)?"`', re.M)
CONSTANT = re.compile(r'^\s+\w+ +(\w+) = "([^"]*)"$', re.M)
PLAIN = {"string": "string", "bool": "boolean", "int64": "integer", "float64": "number"}
OPEN = {"PropertyBag"}  # which may have any members
RENAMED = {("Suppression", "state"): "status"}  # since that draft


def schema_of_type(kind):
    kind = kind.removeprefix("*")
    if kind.startswith("[]"):
        return {"type": "array", "items": schema_of_type(kind.removeprefix("[]"))}
    if kind.startswith("map[string]"):
        return {"type": "object", "additionalProperties": schema_of_type(kind.removeprefix("map[string]"))}
    return {"type": PLAIN[kind]} if kind in PLAIN else {"$ref": f"#/$defs/{kind}"}


def schema_of_struct(name, body):
    fields = [(kind, RENAMED.get((name, member), member), omitted) for kind, member, omitted in FIELD.findall(body)]
    return {
        "type": "object",
        "properties": {member: schema_of_type(kind) for kind, member, _ in fields},
        "required": [member for _, member, omitted in fields if not omitted],
        "additionalProperties": name in OPEN,
    }


def schema_of(source):
    """The schema of what stands in a file of such types."""
    names = {}
    for kind, text in CONSTANT.findall(source):
        names.setdefault(kind, []).append(text)
    types = {name: schema_of_struct(name, body) for name, body in STRUCT.findall(source)}
    types.update((kind, {"enum": texts}) for kind, texts in names.items())
    return {"$schema": "https://json-schema.org/draft/2020-12/schema", "$ref": "#/$defs/Sarif", "$defs": types}


@functools.cache
def sarif_schema():
    """The schema, as a text. NotThere: the package is not, and may not be installed."""
    need("golang-github-haya14busa-go-sarif-dev", str(TYPES))
    return json.dumps(schema_of(TYPES.read_text()))
