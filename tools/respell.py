#!/usr/bin/env python3
"""Gives the repository's own definitions, fields, lemmas and locals the spelling of its Rust: types in camel case, all else in
snake case. Names of the library and names that the prover makes (goals, steps, fields of steps) stay as they are, and so do
comments and must-fail edits.

usage: python3 tools/respell.py [--dry]        at the top of the repository

Says which names fall together, and which get a spelling that stands already. With --dry it writes nothing.
"""
import collections
import glob
import re
import sys

TOKEN = re.compile(r"[^\s(){}\[\];,.\"⌜⌝∥:|]+")
# a name with a dash, or a fact that port.py left with an underscore
WORD = re.compile(r"^([^\W\d][\w']*(-[\w'ℕ]+)+|[A-Z][a-z]+(_[a-z]+)+)$")
# what a file of proofs for one function is called
GENERATED = ("Answers.antt", "Invariants.antt")

# Facts that would have a struct's name.
TAKEN = {n: "Is" + n.title().replace("-", "") for n in ("First-fit", "Best-fit", "Worst-fit", "Earliest-deadline", "Least-slack")}


def crate_files(pattern):
    return sorted(f for f in glob.glob("crates/*/" + pattern, recursive=True) if "/out/" not in f)


def without_comment(line):
    return re.sub(r"(^|\s)--(\s.*)?$", "", line)


def tokens(text):
    for line in text.splitlines():
        yield from TOKEN.findall(without_comment(line))


def respelled(name):
    if name in TAKEN:
        return TAKEN[name]
    name = name.replace("getD", "get_or")
    parts = re.split("[-_]" if name[0].isupper() else "-", name)
    if name[0].isupper():
        return "".join(p[:1].upper() + p[1:] for p in parts)
    return "_".join(parts)


def library_names(text, own):
    """The names that a file imports from what is not this repository."""
    out = set()
    for path, names in re.findall(r"use\s+([^\s{;]+)\.\{([^}]*)\}", text):
        if not any(path.startswith(f"Rattle.{c}.") for c in own):
            out |= {n for part in names.split(",") for n in part.split(" as ")[0].split()}
    return out


def main():
    dry = "--dry" in sys.argv
    own = [d.split("/")[1] for d in glob.glob("crates/*/")]
    proofs = crate_files("**/*.antt")
    texts = {f: open(f, encoding="utf8").read() for f in proofs}
    library, mine, generated = set(), set(), set()
    for f, text in texts.items():
        library |= library_names(text, own)
        if f.endswith(GENERATED):
            generated |= set(re.findall(r"goal\.([^\s(){}\[\];,.]+)", text))
            # the steps and fields that an answer reads, the arms that it names
            generated |= {t for chain in re.findall(r"\b\w+((?:\.[^\s(){}\[\];,.]+)+)", text) for t in chain.split(".") if "-" in t}
            for names in re.findall(r"use Rattle\.\w+\.proofs\.[^\s{]*\.(?:Goals|Given)\.\{([^}]*)\}", text):
                generated |= {n.strip() for n in names.split(",")}
        else:
            mine |= {t for t in tokens(text) if WORD.match(t)}
    for f, text in texts.items():
        if f.endswith(GENERATED):
            mine |= {m for m in re.findall(r"^(?:abbrev )?(?:pub )?([^\s(){}:.]+) : (?!goal\.)", text, re.M) if WORD.match(m)}
    # a name of Rust's keeps its spelling in what is made of it, so these are one word there too
    clash = sorted((mine & generated) - library)
    generated -= set(clash)
    names = {n: respelled(n) for n in mine - library}
    if dry:
        print(len(names), "names;", len(library & mine), "of the library;", "also generated:", clash)
    # names that fall together: two old spellings for one new one, or a new spelling that stands already
    used = collections.defaultdict(set)
    for f, text in texts.items():
        for t in set(tokens(text)):
            used[t].add(f)
    back = collections.defaultdict(list)
    for n, to in names.items():
        back[to].append(n)
    for to, olds in sorted(back.items()):
        if len(olds) > 1:
            print("fall together:", olds, "->", to)
        if to in used:
            both = sorted(used[to] & set().union(*(used[o] for o in olds)))
            print("stands already:", to, "for", olds, "in the same files:" if both else "in other files", both[:4])
    code = crate_files("src/**/*.rt")
    for f in code:
        words = set(re.findall(r"\b[a-z_]\w*\b", re.sub(r"//.*", "", open(f, encoding="utf8").read())))
        for to in sorted(words & set(back)):
            if dry:
                print("a word of the code:", to, f)
    if dry:
        return
    for f, text in texts.items():
        skip = library_names(text, own) | (generated if f.endswith(GENERATED) else set())
        write(f, text, {n: t for n, t in names.items() if n not in skip})
    for f in code:
        text = open(f, encoding="utf8").read()
        write(f, text, names)


def write(path, text, names):
    mark = r"//" if path.endswith(".rt") else r"--(?=\s|$)"

    def one(line):
        at = re.search(mark, line)
        body, rest = (line[: at.start()], line[at.start() :]) if at else (line, "")
        return TOKEN.sub(lambda m: names.get(m.group(), m.group()), body) + rest

    new = "\n".join(one(line) for line in text.split("\n"))
    if new != text:
        open(path, "w", encoding="utf8").write(new)


main()
