"""A checker of JSON Schema, for those keywords of draft 2020-12 that tool/schema uses. It notes which properties it has met."""
import re

TYPES = {"object": dict, "array": list, "string": str, "boolean": bool, "null": type(None)}
SAID = {"$schema", "$id", "$defs", "title", "description"}  # keywords that demand nothing


class Checker:
    def __init__(self, schema):
        self.schema = schema
        self.met = set()  # the properties that a value had: each as the path of its object in the schema, and its name

    def faults(self, value, schema=None, at="", path="#"):
        """What is wrong with a value, each fault with where it is."""
        schema = self.schema if schema is None else schema
        found = []
        for keyword, wanted in schema.items():
            if keyword not in SAID:
                method = getattr(self, "check_" + keyword.strip("$"), None)
                if not method:
                    raise ValueError("%s: the keyword %s isn't known" % (path, keyword))
                found += method(value, wanted, schema, at, path)
        return found

    def check_ref(self, value, wanted, _, at, __):
        schema = self.schema
        for name in wanted.split("/")[1:]:
            schema = schema[name]
        return self.faults(value, schema, at, wanted)

    def check_oneOf(self, value, wanted, _, at, path):
        met, tries = self.met, []
        for number, schema in enumerate(wanted):
            self.met = set()
            tries.append((self.faults(value, schema, at, "%s/oneOf/%d" % (path, number)), self.met))
        self.met = met
        fitting = [names for faults, names in tries if not faults]
        if len(fitting) == 1:
            met.update(fitting[0])
            return []
        return ["%s fits %d of %d: %s" % (at, len(fitting), len(tries), [faults[:3] for faults, _ in tries])]

    def check_type(self, value, wanted, _, at, __):
        names = wanted if isinstance(wanted, list) else [wanted]
        return [] if any(is_of_type(value, name) for name in names) else ["%s is no %s: %r" % (at, wanted, value)]

    def check_const(self, value, wanted, _, at, __):
        return [] if value == wanted and type(value) is type(wanted) else ["%s isn't %r: %r" % (at, wanted, value)]

    def check_enum(self, value, wanted, _, at, __):
        return [] if value in wanted else ["%s is none of %s: %r" % (at, wanted, value)]

    def check_pattern(self, value, wanted, _, at, __):
        return [] if not isinstance(value, str) or re.search(wanted, value) else ["%s isn't like %s: %r" % (at, wanted, value)]

    def check_minimum(self, value, wanted, _, at, __):
        return [] if not is_of_type(value, "number") or value >= wanted else ["%s is below %s: %r" % (at, wanted, value)]

    def check_minItems(self, value, wanted, _, at, __):
        return [] if not isinstance(value, list) or len(value) >= wanted else ["%s has too few" % at]

    def check_maxItems(self, value, wanted, _, at, __):
        return [] if not isinstance(value, list) or len(value) <= wanted else ["%s has too many" % at]

    def check_items(self, value, wanted, _, at, path):
        return [fault for number, each in enumerate(value if isinstance(value, list) else ())
                for fault in self.faults(each, wanted, "%s[%d]" % (at, number), path + "/items")]

    def check_required(self, value, wanted, _, at, __):
        return ["%s lacks %s" % (at, name) for name in wanted if isinstance(value, dict) and name not in value]

    def check_properties(self, value, wanted, _, at, path):
        found = []
        for name in wanted.keys() & (value.keys() if isinstance(value, dict) else ()):
            self.met.add((path, name))
            found += self.faults(value[name], wanted[name], "%s.%s" % (at, name), "%s/properties/%s" % (path, name))
        return found

    def check_patternProperties(self, value, wanted, _, at, path):
        return [fault for pattern, schema in wanted.items() for name in value if re.search(pattern, name)
                for fault in self.faults(value[name], schema, "%s.%s" % (at, name), path + "/patternProperties")]

    def check_additionalProperties(self, value, wanted, schema, at, path):
        if wanted is not False:
            raise ValueError("%s: other properties have to be refused" % path)
        known, patterns = schema.get("properties", {}), schema.get("patternProperties", {})
        return ["%s has %s" % (at, name) for name in (value if isinstance(value, dict) else ())
                if name not in known and not any(re.search(pattern, name) for pattern in patterns)]


def is_of_type(value, name):
    if name in ("integer", "number"):
        return isinstance(value, int if name == "integer" else (int, float)) and not isinstance(value, bool)
    return isinstance(value, TYPES[name])


def objects_in(schema, path="#"):
    """Each part of a schema that has properties, with its path."""
    if isinstance(schema, dict):
        if isinstance(schema.get("properties"), dict):
            yield path, schema
        for name, part in schema.items():
            yield from objects_in(part, "%s/%s" % (path, name))
    elif isinstance(schema, list):
        for number, part in enumerate(schema):
            yield from objects_in(part, "%s/%d" % (path, number))
