#!/usr/bin/env python3
"""Spells this repository's own names as today's Rattle does, after port.py: functions, lemmas and fields in snake case, facts and types in upper camel
case. Run once, at the top. It changes no function of src/, no exported name, no string and no input."""

import collections
import glob
import os
import re
import sys

TOKEN = re.compile(r"[^\s(){}\[\],;.@`\"]+")
CRATES = [line.split(":")[0].split()[0] for line in open("crates.txt") if line.strip() and not line.startswith("#")]
# names of Rattle's own making: a proof file gives them, and no rule of ours spells them
MADE = re.compile(r"^(invariant-|decreases-|Need-|returns-\d|Inv-|Lts-|Read-)")


def snake(name):
    name = re.sub(r"(?<=[a-z0-9])(?=[A-Z])", "_", name)
    return name.lower().replace("-", "_")


def camel(name):
    return "".join(word[:1].upper() + word[1:] for word in re.split(r"[-_]", name))


def texts():
    for crate in CRATES:
        for part in ("specs", "proofs"):
            for at, folders, names in os.walk(f"crates/{crate}/{part}"):
                for name in sorted(names):
                    if name.endswith(".antt"):
                        yield crate, f"{at}/{name}"


def module_of(path):
    return "Rattle." + path[len("crates/"):-len(".antt")].replace("/", ".")


def is_type(text, at):
    """The signature from the colon on ends in a universe."""
    rest = text[at:]
    line = rest.split("\n")[0]
    k = 1
    lines = rest.split("\n")
    while k < len(lines) and re.match(r"\s+(→|×)", lines[k]):
        line = lines[k]
        k += 1
    return re.search(r"(^|[ →:])Type [01]( where)?\s*$", line) is not None


DECLARED = re.compile(r"^( *)((?:abbrev |unfoldable |data |record )*(?:pub )?(?:abbrev |unfoldable |data |record )*)([^\s(){}.,;:λ]+)((?: [^\s(){}.,;:λ=]+)*)(?: [({][^:]*[^=]*?)? :(?= )", re.M)


def declared(path, text):
    """The names that a file of definitions or laws gives, each with whether it is a type, and whether it is a field."""
    names, fields = {}, set()
    block = None  # the indent of an open record
    at = 0
    for line in text.split("\n"):
        start, at = at, at + len(line) + 1
        bare = line.strip()
        if bare.startswith("--") or bare.startswith("use ") or not bare:
            continue
        indent = len(line) - len(line.lstrip())
        if block is not None and indent <= block:
            block = None
        found = re.match(r"( *)((?:(?:abbrev|unfoldable|data|record|pub) )*)([^\s(){}.,;:λ]+)(.*)$", line)
        if not found:
            continue
        words, name, rest = found.group(2).split(), found.group(3), found.group(4)
        if name in ("module", "mod", "let", "infix", "infixl", "infixr", "unfolding", "where", "in", "open", "ruleset"):
            continue
        if "record" in words or "data" in words:
            names[name] = True
            if rest.rstrip().endswith("where"):
                block = indent if "record" in words else None
            continue
        colon = re.match(r"((?: [^\s(){}.,;:λ=]+)*)(?: [({].*?[)}])* :(?= |$)", rest)
        if colon is None:
            continue
        if not words and "=" in rest.split(" : ")[0]:
            continue
        kind = is_type(text, start + found.end(3) + 1)
        for one in [name] + colon.group(1).split():
            names.setdefault(one, False)
            if kind and block is None:
                names[one] = True
            if block is not None:
                fields.add(one)
    return names, fields


def new_name(name, a_type):
    if MADE.match(name) or "◌" in name or name.startswith("μ"):
        return name
    if a_type and name[:1].islower():
        return camel(name) if len(name) > 1 else name
    if a_type:
        return name
    if re.search(r"[a-z0-9][A-Z]", name) and name[:1].islower() or "-" in name and not name.startswith("+"):
        return snake(name)
    if name.startswith("+") and "-" in name:
        return name.replace("-", "_")
    return name


def imports(text):
    """(module, [(name, as)]) of each line of imports, and the modules that have another name here."""
    named, modules = [], {}
    for found in re.finditer(r"^\s*(?:ghost )?use ([^\s{;]+)\.\{([^}]*)\};?", text, re.M):
        pairs = []
        for item in found.group(2).split(","):
            item = item.strip()
            if item:
                parts = item.split(" as ")
                pairs.append((parts[0].strip(), parts[-1].strip()))
        named.append((found.group(1), pairs))
    for found in re.finditer(r"^\s*(?:ghost )?use ([^\s{;]+)(?: as (\S+?))?;?$", text, re.M):
        modules[found.group(2) or found.group(1).split(".")[-1]] = found.group(1)
    return named, modules


def spelled(module):
    """A line that port.py did not read: a method beside a file of its name."""
    return module.replace("·", ".")


GIVEN = {}
FIELDS = {}
# fields that say of a definition's answer that it is true, and would have its name
FACTS = {"address-right": "right_address", "kind-right": "right_kind", "length-right": "right_length"}


def learn():
    said = set()  # what a definition is called, old and new
    found = [(path, *declared(path, open(path).read())) for _, path in texts()]
    for path, names, fields in found:
        if "/specs/" in path:
            said |= {(n, new_name(n, k)) for n, k in names.items()}
    defined = collections.defaultdict(set)
    for old, new in said:
        defined[new].add(old)
    for path, names, fields in found:
        given = {n: new_name(n, k) for n, k in names.items()}
        if "/proofs/" in path:
            # a law that would have a definition's name
            for name, new in given.items():
                if defined[new] - {name} and name not in fields:
                    given[name] = new + "_lem"
        GIVEN[module_of(path)] = given
        for field in fields:
            FIELDS[field] = given[field] = FACTS.get(field, new_name(field, False))


def mapping(text, own):
    """What each name of a file is called from now on, and what a name behind the name of a module is called."""
    named, modules = imports(text)
    table = {}
    for found in re.finditer(r"(?:[({]|\blet )([^\s(){}:]+(?: [^\s(){}:]+)*) :(?= )", text):
        for name in found.group(1).split():
            table[name] = new_name(name, False)
    table.update(own)
    foreign = set()
    for module, pairs in named:
        given = GIVEN.get(module)
        for name, here in pairs:
            if given is not None and name in given:
                if here == name:
                    table[name] = given[name]
                else:
                    table[name] = given[name]
                    table.setdefault(here, new_name(here, False))
            else:
                foreign.add(here)
    behind = {here: GIVEN[module] for here, module in modules.items() if module in GIVEN}
    for name, new in FIELDS.items():
        if name not in foreign:
            table.setdefault(name, new)
    for name in foreign:
        if name not in own:
            table.pop(name, None)
    return {n: m for n, m in table.items() if n != m}, behind


def turn(text, table, behind):
    out, last = [], 0
    for found in TOKEN.finditer(text):
        token = found.group(0)
        before = text[found.start() - 1] if found.start() else " "
        new = token
        if before == ".":
            qualifier = re.search(r"([^\s(){}\[\],;.@`\"]+)\.$", text[:found.start()])
            where = behind.get(qualifier.group(1)) if qualifier else None
            if where is not None:
                new = where.get(token, token)
            else:
                new = FIELDS.get(token, token)
        else:
            new = table.get(token, token)
            if new == token and token[:1] in "λ¬" and token[1:] in table:
                new = token[:1] + table[token[1:]]
        out.append(text[last:found.start()])
        out.append(new)
        last = found.end()
    out.append(text[last:])
    return "".join(out)


def turn_file(path, own, report):
    text = open(path).read()
    text = re.sub(r"^(\s*(?:ghost )?use )(Rattle·[^\s{;]+)", lambda m: m.group(1) + spelled(m.group(2)).replace(".proofs.proofs.", ".proofs.").replace(".specs.specs.", ".specs."), text, flags=re.M)
    table, behind = mapping(text, own)
    tokens = set(TOKEN.findall(text))
    for name, new in table.items():
        if name in tokens and new in tokens:
            report.append(f"{path}: {name} and {new} fall together")
    seen = collections.defaultdict(set)
    for name, new in table.items():
        if name in tokens:
            seen[new].add(name)
    for new, olds in seen.items():
        if len(olds) > 1:
            report.append(f"{path}: {' and '.join(sorted(olds))} fall together as {new}")
    turned = turn(text, table, behind)
    if turned != open(path).read():
        open(path, "w").write(turned)


def main():
    learn()
    report = []
    changed = collections.OrderedDict()
    for module, table in GIVEN.items():
        for name, new in table.items():
            if name != new:
                changed.setdefault(name, new)
    for crate, path in list(texts()):
        turn_file(path, GIVEN[module_of(path)], report)
    for crate in CRATES:
        for path in sorted(glob.glob(f"crates/{crate}/src/**/*.rt", recursive=True)):
            turn_file(path, {}, report)
    for path in sorted(glob.glob("crates/*/must-fail/*.edit")):
        text = open(path).read()
        target = re.search(r"^file: (.*)$", text, re.M).group(1)
        if target.endswith(".antt"):
            crate = path.split("/")[1]
            own = GIVEN.get(module_of(f"crates/{crate}/{target}"), {})
            table = {n: m for n, m in own.items() if n != m}
            head, rest = text.split("\n", 1)
            open(path, "w").write(head + "\n" + turn(rest, table, {}))
    for line in report:
        print(line)
    if "--names" in sys.argv:
        for name, new in changed.items():
            print(f"{name} {new}")


main()
