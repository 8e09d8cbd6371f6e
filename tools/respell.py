#!/usr/bin/env python3
"""Brings the repository's own definitions, lemmas and fields to the library's spelling: words in snake case, types in camel case.

    python3 tools/respell.py          at the top of the checkout, once, after the kit's port.py

Names of src/, goals that the prover makes, strings and comments keep theirs. A lemma that would get the name of another
definition gets `_lem` behind it.
"""
import collections
import glob
import re

NAME = r"[^\s(){}\[\],;:.]+"
TOKEN = re.compile(r"--[^\n]*|\"[^\"]*\"|[^\s(){}\[\],;:.λ]+|.", re.S)


def files(kind):
    return sorted(glob.glob(f"crates/*/{kind}/**/*.antt", recursive=True))


def kind_of(mark, said):
    if re.match(r"goal\.|given\.", said):
        return "answer"
    if said.endswith("Type 0"):
        return "type"
    return "word" if mark else "lemma"


def definitions():
    found = collections.defaultdict(set)
    for path in files("specs") + files("proofs"):
        for other in re.findall(r" as ([a-z]\w*[A-Z]\w*)", open(path).read()):
            found[other].add("word")
        inside = None
        for line in open(path):
            line = line.rstrip("\n")
            if m := re.match(rf"(?:pub )?(record|data) ({NAME})", line):
                inside = m.group(1)
                found[m.group(2)].add("type")
            elif inside and (m := re.match(rf"  (?:pub )?({NAME}) : ", line)):
                found[m.group(1)].add("field" if inside == "record" else "constructor")
            elif m := re.match(rf"  (?:  )?(abbrev |unfoldable )?(pub )?({NAME}) :( .*)$", line):
                # in a block of definitions that go by one another
                found[m.group(3)].add(kind_of(m.group(1), m.group(4).strip()))
            elif line and not line[0].isspace() and not line.startswith("--"):
                inside = None
                if m := re.match(rf"(abbrev |unfoldable )?(pub )?({NAME}) :( .*)$", line):
                    found[m.group(3)].add(kind_of(m.group(1), m.group(4).strip()))
    return found


def snake(name):
    name = re.sub(r"([a-z0-9])([A-Z])", r"\1_\2", name).lower()
    return name.replace("-", "_").replace("·", "_")


def camel(name):
    return "".join(part[0].upper() + part[1:] for part in re.split(r"[-_]", name))


def renamed(found):
    new = {}
    for name, kinds in found.items():
        if "answer" in kinds:
            continue
        other = camel(name) if "type" in kinds else snake(name)
        if other != name:
            new[name] = other
    taken = collections.Counter(new.values())
    stay = {name for name in found if name not in new}
    for name in sorted(new):
        other = new[name]
        if (other in stay or taken[other] > 1) and found[name] <= {"lemma"}:
            new[name] = other + "_lem"
        elif other in stay and found[other] <= {"lemma"}:
            new[other] = other + "_lem"
    return new


def falls_together(found, new):
    made = collections.defaultdict(set)
    for name in found:
        made[new.get(name, name)].add(name)
    return {name: olds for name, olds in made.items() if len(olds) > 1}


def respelled(text, new, found):
    out = []
    before = owner = ""
    modules = re.findall(r"^use Rattle\S*\.specs\.\S+ as (\w+)", text, re.M)
    for token in TOKEN.findall(text):
        if token in new and (before != "." or owner in modules or found[token] & {"field", "constructor", "type"}):
            out.append(new[token])
        else:
            out.append(token)
        before, owner = token, before
    return "".join(out)


def respelled_source(text, new, found):
    lines = []
    for line in text.split("\n"):
        if not line.strip().startswith("//") and not line.strip().startswith("\""):
            line = respelled(line, new, found)
        lines.append(line)
    return "\n".join(lines)


def main():
    found = definitions()
    new = renamed(found)
    for name, olds in sorted(falls_together(found, new).items()):
        print("falls together:", name, sorted(olds))
    for path in files("specs") + files("proofs"):
        text = open(path).read()
        open(path, "w").write(respelled(text, new, found))
    for path in sorted(glob.glob("crates/*/src/**/*.rt", recursive=True)):
        text = open(path).read()
        open(path, "w").write(respelled_source(text, new, found))
    for name in sorted(new):
        print(name, new[name], "/".join(sorted(found[name])))


if __name__ == "__main__":
    main()
