"""JSON schemas, as far as those of this repository go: what of a value isn't as one says. Licence: public
domain (CC0)."""
from __future__ import annotations

import json
from typing import Any, Dict, List

KINDS = {"object": dict, "array": list, "string": str, "integer": int, "boolean": bool, "null": type(None)}


def fits(value: Any, shape: Any, whole: Dict[str, Any], path: str = "$") -> List[str]:
    """What of a value isn't as a JSON schema says: of the words that those here use. Of integers those alone
    that are written without point and exponent."""
    if "$ref" in shape:
        shape = {**whole["$defs"][shape["$ref"].rsplit("/", 1)[-1]],
                 **{word: one for word, one in shape.items() if word != "$ref"}}
    kinds = shape.get("type", list(KINDS))
    if (type(value) not in [KINDS[kind] for kind in ([kinds] if isinstance(kinds, str) else kinds)]
        or value not in shape.get("enum", [value])):
        return [f"{path}: {value!r}"]
    if isinstance(value, int) and not shape.get("minimum", value) <= value <= shape.get("maximum", value):
        return [f"{path}: {value!r} isn't from {shape.get('minimum')} to {shape.get('maximum')}"]
    if isinstance(value, list):
        return [one for at, item in enumerate(value) for one in fits(item, shape.get("items", {}), whole,
                                                                     f"{path}[{at}]")]
    return members(value, shape, whole, path) if isinstance(value, dict) else []


def members(value: Any, shape: Dict[str, Any], whole: Dict[str, Any], path: str) -> List[str]:
    """What of an object's members isn't so."""
    known, others = shape.get("properties", {}), shape.get("additionalProperties", {})
    found = [f"{path}.{key} is missing" for key in shape.get("required", []) if key not in value]
    for key, item in value.items():
        inner = known.get(key, others)
        found += ([f"{path}.{key} isn't known"] if inner is False
                  else fits(item, inner, whole, f"{path}.{key}"))
    return found


def read_json(path: str) -> Dict[str, Any]:
    with open(path, encoding="utf-8") as file:
        return json.load(file)
