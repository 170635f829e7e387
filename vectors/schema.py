"""A small checker of JSON Schema: the words that schema.json uses, and a fault for any other word."""
from __future__ import annotations

import re
from typing import Any, Dict, List, Optional

PLAIN = {"$schema", "title", "description", "definitions"}
TYPES = {"object": dict, "array": list, "string": str, "integer": int, "boolean": bool}


def same(left: Any, right: Any) -> bool:
    """Equal and of one type: true is not 1."""
    return type(left) is type(right) and left == right


class Schema:
    """A schema, against which values are held."""

    def __init__(self, text: Dict[str, Any]) -> None:
        self.root = text

    def fault(self, value: Any, schema: Optional[Dict[str, Any]] = None, at: str = "") -> Optional[str]:
        """The first thing that is wrong with a value, None where nothing is."""
        for word, wanted in (self.root if schema is None else schema).items():
            if word in PLAIN or word == "properties" and "additionalProperties" in (schema or {}):
                continue
            found = getattr(self, "check_" + word.lstrip("$"), self.unknown)(value, wanted, at, schema or self.root)
            if found:
                return found
        return None

    def unknown(self, value: Any, wanted: Any, at: str, schema: Dict[str, Any]) -> str:
        return f"{at}: the schema has a word that is not checked here"

    def check_ref(self, value: Any, wanted: str, at: str, schema: Dict[str, Any]) -> Optional[str]:
        return self.fault(value, self.root["definitions"][wanted.rsplit("/", 1)[1]], at)

    def check_oneOf(self, value: Any, wanted: List[Dict[str, Any]], at: str, schema: Dict[str, Any]) -> Optional[str]:
        faults = [self.fault(value, one, at) for one in wanted]
        good = faults.count(None)
        if good == 1:
            return None
        near = max((fault for fault in faults if fault), key=lambda fault: fault.split(":")[0].count("."), default="")
        return f"{at}: {good} of {len(wanted)} forms fit; {near}"

    def check_type(self, value: Any, wanted: str, at: str, schema: Dict[str, Any]) -> Optional[str]:
        good = isinstance(value, TYPES[wanted]) and (wanted == "boolean" or not isinstance(value, bool))
        return None if good else f"{at}: no {wanted}"

    def check_enum(self, value: Any, wanted: List[Any], at: str, schema: Dict[str, Any]) -> Optional[str]:
        return None if any(same(value, one) for one in wanted) else f"{at}: none of {wanted}"

    def check_const(self, value: Any, wanted: Any, at: str, schema: Dict[str, Any]) -> Optional[str]:
        return None if same(value, wanted) else f"{at}: not {wanted}"

    def check_pattern(self, value: Any, wanted: str, at: str, schema: Dict[str, Any]) -> Optional[str]:
        return (
            None if not isinstance(value, str) or re.search(wanted, value) else f"{at}: {value!r} does not fit {wanted}"
        )

    def check_minimum(self, value: Any, wanted: int, at: str, schema: Dict[str, Any]) -> Optional[str]:
        return None if not isinstance(value, int) or value >= wanted else f"{at}: below {wanted}"

    def check_maximum(self, value: Any, wanted: int, at: str, schema: Dict[str, Any]) -> Optional[str]:
        return None if not isinstance(value, int) or value <= wanted else f"{at}: above {wanted}"

    def check_minItems(self, value: Any, wanted: int, at: str, schema: Dict[str, Any]) -> Optional[str]:
        return None if not isinstance(value, list) or len(value) >= wanted else f"{at}: fewer than {wanted}"

    def check_maxItems(self, value: Any, wanted: int, at: str, schema: Dict[str, Any]) -> Optional[str]:
        return None if not isinstance(value, list) or len(value) <= wanted else f"{at}: more than {wanted}"

    def check_uniqueItems(self, value: Any, wanted: bool, at: str, schema: Dict[str, Any]) -> Optional[str]:
        return (
            None
            if not isinstance(value, list) or len(set(map(repr, value))) == len(value)
            else f"{at}: something twice"
        )

    def check_items(self, value: Any, wanted: Dict[str, Any], at: str, schema: Dict[str, Any]) -> Optional[str]:
        for number, item in enumerate(value if isinstance(value, list) else []):
            found = self.fault(item, wanted, f"{at}.{number}")
            if found:
                return found
        return None

    def check_required(self, value: Any, wanted: List[str], at: str, schema: Dict[str, Any]) -> Optional[str]:
        missing = [name for name in wanted if isinstance(value, dict) and name not in value]
        return f"{at}: no {missing[0]}" if missing else None

    def check_properties(self, value: Any, wanted: Dict[str, Any], at: str, schema: Dict[str, Any]) -> Optional[str]:
        return self.check_additionalProperties(value, {}, at, schema)

    def check_additionalProperties(self, value: Any, wanted: Any, at: str, schema: Dict[str, Any]) -> Optional[str]:
        known = schema.get("properties", {})
        for name, part in value.items() if isinstance(value, dict) else ():
            if name not in known and wanted is False:
                return f"{at}: {name} is not known"
            found = self.fault(part, known.get(name, wanted), f"{at}.{name}")
            if found:
                return found
        return None
