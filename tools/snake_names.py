#!/usr/bin/env python3
"""Respells the repository's own definitions and lemmas: words of a name are joined by `_`.

usage: python3 tools/snake_names.py        at the top of the repository, once, after the kit's own script

The laws of a kind are renamed by a list. A name is renamed if a file of specs/ or proofs/ defines it outside of the names that Rattle makes (goals,
invariants, measures), and it begins with a small letter. A dash after a type stays, as in `Loaded-fits`. Names
of a library, comments, strings, and the functions of src/ stay as they are. A definition may then be spelled
as the function that computes it, which is the spelling wanted. Where a parameter or another name of a file
would fall together with a name, that is printed and nothing is written.
"""
import collections
import os
import re

TOKEN = re.compile(r"[^\s(){}\[\].,;:@\"«»←λ]+")
DEFINED = re.compile(r"^\s*(?:(?:pub|abbrev|unfoldable|record|data|ruleset) )*([^\s(){}\[\].,;:@\"«»←λ]+) :(?: |$)")
IMPORT = re.compile(r"^(?:ghost )?use ([^\s;{]+?)(?:\.\{(.*)\})?(?: as \S+)?;?$")
LAWS = {"wideSome": "wide_some", "allWide": "all_wide", "readBack": "read_back", "meansThem": "means_them"}
MADE = {"Answers.antt", "Invariants.antt", "Proof.antt"}


def files():
    for folder, dirs, names in os.walk("crates"):
        dirs[:] = sorted(d for d in dirs if d != "out")
        for name in sorted(names):
            if name.endswith((".rt", ".antt")):
                yield os.path.join(folder, name)


def crates():
    return {c for c in os.listdir("crates")}


def code_of(line, antt):
    """Where the code of a line ends, and a comment begins."""
    mark = re.search(r"(^|\s)--(\s|$)", line) if antt else re.search(r"//", line)
    return len(line) if mark is None else mark.start()


def imported(text, own):
    """The names that a file takes from a library."""
    taken = set()
    for line in text.splitlines():
        it = IMPORT.match(line.strip())
        if it is None or it.group(2) is None:
            continue
        parts = it.group(1).split(".")
        if parts[0] == "Rattle" and parts[1] in own:
            continue
        taken |= {n.split(" as ")[-1].strip() for n in it.group(2).split(",")}
    return taken


def defined(path, text):
    made = os.path.basename(path) in MADE
    for line in text.splitlines():
        it = DEFINED.match(line)
        if it is None or made and ": goal." in line:
            continue
        yield it.group(1)


def parameters(text):
    """What a file of src/ names in a signature or a binding."""
    return set(re.findall(r"\b(?:let (?:mut )?)?([a-z][a-z0-9_]*)(?=: [&A-Za-z\[(])", text)) | set(re.findall(r"let (?:mut )?(\w+) =", text))


def snake(name):
    return name.replace("-", "_")


def main():
    texts = {}
    for path in files():
        with open(path, encoding="utf-8") as f:
            texts[path] = f.read()
    own = crates()
    names = set()
    for path, text in texts.items():
        if path.endswith(".antt"):
            names |= {n for n in defined(path, text) if "-" in n.strip("-") and n[0].islower()}
    bad = 0
    for path, text in sorted(texts.items()):
        antt = path.endswith(".antt")
        taken = imported(text, own)
        turned = names - taken
        seen, out = set(), []
        for line in text.split("\n"):
            end = code_of(line, antt)
            code, rest = line[:end], line[end:]
            goal = re.match(r"^(pub )?(\S+) : goal\.", code)
            parts = re.split(r"(\"[^\"]*\")", code)
            for i in range(0, len(parts), 2):
                def turn(it, part=parts[i]):
                    word = it.group(0)
                    before = part[: it.start()]
                    if goal and word == goal.group(2) or before.endswith("goal."):
                        return word
                    if not before.endswith(".") and not part.startswith(("use ", "ghost use ")):
                        seen.add(word)
                    if word in LAWS:
                        return LAWS[word]
                    return snake(word) if word in turned else word
                parts[i] = TOKEN.sub(turn, parts[i])
            out.append("".join(parts) + rest)
        for word in sorted(seen & turned):
            if snake(word) in (seen if antt else parameters(text)):
                print(f"fall together: {path}: {word} and {snake(word)}")
                bad += 1
        texts[path] = "\n".join(out)
    spelled = collections.defaultdict(set)
    for name in names:
        spelled[snake(name)].add(name)
    for new, olds in spelled.items():
        if len(olds) > 1:
            print("fall together:", new, olds)
            bad += 1
    if bad:
        print(f"{bad} names would fall together; nothing is written")
        return 1
    for path, text in texts.items():
        with open(path, "w", encoding="utf-8") as f:
            f.write(text)
    print(f"{len(names)} names respelled")
    return 0


if __name__ == "__main__":
    raise SystemExit(main())
