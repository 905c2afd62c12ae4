"""Holds the JSON and the CSV of tests/command/forms.txt to each other: both can be read, and have the same names and values.

    forms.py FORMS
"""
import csv
import json
import re
import sys


def runs(path):
    """Each command of the file with the lines below it, without what went to standard error."""
    with open(path, encoding="utf-8") as stream:
        for block in stream.read().split("$ gvrs ")[1:]:
            command, *lines = block.splitlines()
            yield command, [line for line in lines if not line.startswith(("gvrs: ", "exit status "))]


def field(value):
    """A value of JSON as a field of CSV. A text's control characters, and its backslashes, are digits there, but those of a byte that is
    no character, which stands in both as digits."""
    if isinstance(value, bool):
        return str(value).lower()
    if isinstance(value, list):
        return " ".join(map(field, value))
    if not isinstance(value, str):
        return "" if value is None else str(value) if isinstance(value, int) else "%.9g" % value
    digits = re.compile(r"[\x00-\x1f\x7f-\x9f]|\\(?!x[0-9a-f]{2})")
    return digits.sub(lambda c: "".join("\\x%02x" % byte for byte in c[0].encode()), value)


def facts(value, path=""):
    """The names and values of an object, with the lists in it."""
    for name, of_name in value.items():
        if isinstance(of_name, list):
            for number, row in enumerate(of_name):
                yield from facts(row, f"{path}{name}.{number}.")
        else:
            yield [path + name, field(of_name)]


def rows(value):
    """What CSV has of a value below its line of names."""
    if isinstance(value, dict) and "elements" in value:
        return list(facts(value))
    if isinstance(value, dict):
        value = value["cells"] if "cells" in value else [value]
    return [[field(of_name) for of_name in row.values()] for row in value]


def no_constant(name):
    raise ValueError(f"{name} is no JSON")


def main():
    compared, answer = 0, None
    for command, lines in runs(sys.argv[1]):
        if not lines:
            continue
        if command.endswith(" --json"):
            answer = json.loads("\n".join(lines), parse_constant=no_constant)
        elif command.endswith(" --csv") and answer is not None:
            read = list(csv.reader(lines, strict=True))
            if read[1:] != rows(answer):
                sys.exit(f"{command}: {read[1:]}, as JSON {rows(answer)}")
            compared, answer = compared + 1, None
    if compared < 20:
        sys.exit(f"only {compared} answers were compared")


main()
