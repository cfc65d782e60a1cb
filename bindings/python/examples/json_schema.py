"""A JSON Schema validator whose patterns are those of ECMA-262, as JSON Schema asks; Python's `re` reads many of them otherwise.

    python3 json_schema.py SCHEMA INSTANCE      tells each error of a JSON file under a schema; the status is 1 where there is one

It is Debian's `python3-jsonschema` with the four keywords and the format that have patterns taken over. Patterns are read with the
flag `u`, as JSON Schema asks. What a reference by `$dynamicRef` evaluates is not seen by `unevaluatedProperties`.
"""

import json
import sys

from jsonschema import Draft202012Validator, FormatChecker, ValidationError, validators

import regress


def occurs(pattern, text):
    """Whether a pattern of a schema matches somewhere in a text."""
    return regress.search(pattern, text, "u") is not None


def pattern(validator, source, instance, schema):
    if validator.is_type(instance, "string") and not occurs(source, instance):
        yield ValidationError(f"{instance!r} does not match {source!r}")


def pattern_properties(validator, patterns, instance, schema):
    if validator.is_type(instance, "object"):
        for source, subschema in patterns.items():
            for name, value in instance.items():
                if occurs(source, name):
                    yield from validator.descend(value, subschema, path=name, schema_path=source)


def named(instance, schema):
    """The properties that `properties` and `patternProperties` of a schema are about."""
    patterns = schema.get("patternProperties", {})
    return {name for name in instance if name in schema.get("properties", {}) or any(occurs(source, name) for source in patterns)}


def additional_properties(validator, subschema, instance, schema):
    if validator.is_type(instance, "object"):
        for name in sorted(instance.keys() - named(instance, schema)):
            yield from validator.descend(instance[name], subschema, path=name)


def parts_that_hold(validator, instance, schema):
    """The schemas inside of a schema that an instance is valid under."""
    parts = [part for keyword in ("allOf", "anyOf", "oneOf") for part in schema.get(keyword, [])]
    parts += [part for name, part in schema.get("dependentSchemas", {}).items() if name in instance]
    if "if" in schema:
        holds = validator.evolve(schema=schema["if"]).is_valid(instance)
        parts += [schema["if"], schema.get("then", True)] if holds else [schema.get("else", True)]
    return [part for part in parts if validator.evolve(schema=part).is_valid(instance)]


def evaluated(validator, instance, schema):
    """The properties that a schema evaluates."""
    if not isinstance(schema, dict):
        return set()
    if "additionalProperties" in schema or "unevaluatedProperties" in schema:
        return set(instance)
    names = named(instance, schema)
    for part in parts_that_hold(validator, instance, schema):
        names |= evaluated(validator, instance, part)
    if "$ref" in schema:
        with validator.resolver.resolving(schema["$ref"]) as target:
            names |= evaluated(validator, instance, target)
    return names


def unevaluated_properties(validator, subschema, instance, schema):
    if validator.is_type(instance, "object"):
        beside = {keyword: value for keyword, value in schema.items() if keyword != "unevaluatedProperties"}
        for name in sorted(instance.keys() - evaluated(validator, instance, beside)):
            yield from validator.descend(instance[name], subschema, path=name)


FORMATS = FormatChecker()


@FORMATS.checks("regex", raises=regress.error)
def is_regex(instance):
    return not isinstance(instance, str) or bool(regress.compile(instance, "u"))


Validator = validators.extend(Draft202012Validator, {
    "pattern": pattern,
    "patternProperties": pattern_properties,
    "additionalProperties": additional_properties,
    "unevaluatedProperties": unevaluated_properties,
})


def main():
    schema, instance = (json.load(open(name, encoding="utf-8")) for name in sys.argv[1:3])
    Validator.check_schema(schema)
    errors = list(Validator(schema, format_checker=FORMATS).iter_errors(instance))
    for refused in errors:
        print(f"{refused.json_path}: {refused.message}")
    sys.exit(1 if errors else 0)


if __name__ == "__main__":
    main()
