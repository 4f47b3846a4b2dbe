#!/usr/bin/env python3
"""Brings the names that this repository gives its own definitions, fields and lemmas to the spelling of today's Rattle.

usage: python3 tools/respell.py          at the top of the repository, once, after the kit's port.py

Words are in snake case, types and facts in camel case. Functions of src/, strings, and the names that Rattle makes
for goals and for the steps of the code keep theirs. It prints the renamings, and stops before it writes anything
where two names would fall together.
"""

import pathlib
import re
import sys

NAMED = {
    "P-kind": "port_kind",
    "F-kind": "flow_kind",
    "B-kind": "row_kind",
    "E-kind": "end_kind",
}
TOKEN = re.compile(r"[A-Za-z_][\w'₀-₉]*(?:-[A-Za-z0-9_][\w'₀-₉]*)*")
DECLARED = re.compile(r"^\s*(?:(?:unfoldable|abbrev|pub|record|data|ruleset) )*(%s)\s*:(?!=)" % TOKEN.pattern)
RECORD = re.compile(r"^\s*(?:pub )?(?:record|data) (%s)" % TOKEN.pattern)
FIELD = re.compile(r"^\s+(?:pub )?(%s)\s*:(?!=)" % TOKEN.pattern)
MODULE = re.compile(r"^use [\w.]+ as (\w+)$", re.M)
LOCAL = re.compile(r"\blet (%s)\b(?=\s*[:=])" % TOKEN.pattern)


def spelled(name):
    """The name as it is spelled today."""
    if name in NAMED:
        return NAMED[name]
    if name[0].isupper():
        return "".join(part[0].upper() + part[1:] for part in name.split("-"))
    name = name.replace("getD", "get_or").replace("-", "_")
    return re.sub(r"(?<=[a-z0-9])([A-Z])(?=[a-z])", lambda m: "_" + m.group(1).lower(), name)


def antt_files():
    for folder in ("specs", "proofs"):
        yield from sorted(pathlib.Path("crates").glob(f"*/{folder}/**/*.antt"))


def gather():
    """The names that the repository gives and that are spelled otherwise today, each with a file; and its fields."""
    names, fields = {}, set()
    for path in antt_files():
        for line in path.read_text().splitlines():
            if line.lstrip().startswith("--"):
                continue
            found = LOCAL.findall(line)
            if (m := RECORD.match(line)) or ((m := DECLARED.match(line)) and ": goal." not in line):
                found.append(m.group(1))
            if (m := FIELD.match(line)) and ": goal." not in line:
                fields.add(m.group(1))
            for name in found:
                if spelled(name) != name:
                    names.setdefault(name, str(path))
    return names, fields


def turned(text, names, fields):
    """The text with the names respelled, but for strings and what stands behind a dot and is neither a field nor a module's."""
    out, at = [], 0
    modules = {alias for alias in MODULE.findall(text) if alias != "goal"}
    for m in TOKEN.finditer(text):
        name = m.group(0)
        if name not in names:
            continue
        line = text[text.rfind("\n", 0, m.start()) + 1 : m.start()]
        module = re.search(r"(?<![\w.])(\w+)\.$", line)
        if line.endswith(".") and name not in fields and not (module and module.group(1) in modules):
            continue
        if line.count('"') % 2 == 1:
            continue
        out += [text[at : m.start()], spelled(name)]
        at = m.end()
    return "".join(out) + text[at:]


def main():
    names, fields = gather()
    taken = {}
    for path in antt_files():
        text = path.read_text()
        for m in TOKEN.finditer(text):
            if text[max(0, m.start() - 1) : m.start()] != ".":
                taken.setdefault(m.group(0), str(path))
    wrong = 0
    back = {}
    for name in sorted(names):
        new = spelled(name)
        print(f"{name} -> {new}")
        if new in back or new in taken:
            wrong += 1
            print(f"falls together: {name} ({names[name]}) with {back.get(new) or new} ({taken.get(new)})", file=sys.stderr)
        back[new] = name
    if wrong:
        return 1
    for path in antt_files():
        text = path.read_text()
        path.write_text(turned(text, names, fields))
    for path in sorted(pathlib.Path("crates").glob("*/src/**/*.rt")):
        text = path.read_text()
        path.write_text(turned(text, names, fields))
    return 0


if __name__ == "__main__":
    sys.exit(main())
