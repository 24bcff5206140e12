#!/usr/bin/env python3
"""Lists the places in crates/*/src that may want another form: own Options and Results, twins, index loops, work of the library
written by hand, facts and parameters that stand in many contracts, buffers with a length beside them, switches.

usage: python3 tools/forms.py [COMMIT]        at the top of the repository; of the working tree, or of a commit

A row is a place to look at, not a verdict: docs/DESIGN-PASS.md says what became of each. Tests are left out.
"""
import collections
import re
import subprocess
import sys

FN = re.compile(r"^(\s*)(?:pub(?:\([a-z]+\))? )?(?:final |const )?fn (\w+)")
KEYWORDS = set(
    "as const else enum false fn for if impl in let loop match mod mut pub ref return self Self struct true use while break move"
    " u8 u16 u32 u64 usize i64 bool char str Option Some None Result Ok Err".split()
)


def files(commit):
    """The texts of crates/*/src, by path."""
    if commit:
        names = subprocess.run(["git", "ls-tree", "-r", "--name-only", commit, "crates"], capture_output=True, text=True, check=True)
    else:
        names = subprocess.run(["git", "ls-files", "-co", "--exclude-standard", "crates"], capture_output=True, text=True, check=True)
    texts = {}
    for path in names.stdout.split():
        if not re.fullmatch(r"crates/\w+/src/\w+\.rt", path) or path.endswith("tests.rt"):
            continue
        if commit:
            texts[path] = subprocess.run(["git", "show", f"{commit}:{path}"], capture_output=True, text=True, check=True).stdout
        else:
            with open(path, encoding="utf-8") as file:
                texts[path] = file.read()
    return texts


def functions(path, text):
    """Each function: path, line, name, signature, clauses, body."""
    lines = text.split("\n")
    found = []
    for at, line in enumerate(lines):
        start = FN.match(line)
        if not start:
            continue
        end = at
        while end < len(lines) and lines[end] not in (start[1] + "}", start[1] + "{}") and not (end > at and FN.match(lines[end])):
            if lines[end].rstrip().endswith(";") and len(lines[end]) - len(lines[end].lstrip()) <= len(start[1]) + 4 and "{" not in "".join(lines[at:end]):
                break
            end += 1
        whole = lines[at : end + 1]
        opens = next((i for i, l in enumerate(whole) if l == start[1] + "{" or (i == 0 or l.startswith(start[1] + ")")) and l.endswith("{") and "ensures" not in l and "requires" not in l), len(whole))
        head, body = whole[: opens + 1], whole[opens + 1 :]
        clause = next((i for i, l in enumerate(head) if re.match(r"\s*(requires|ensures)\b", l)), len(head))
        comment = []
        up = at - 1
        while up >= 0 and lines[up].strip().startswith(("///", "#[")):
            comment.insert(0, lines[up].strip())
            up -= 1
        found.append((path, at + 1, start[2], " ".join(l.strip() for l in head[:clause]), " ".join(l.strip() for l in head[clause:]), "\n".join(body), " ".join(comment)))
    return found


def shape(body):
    """The body with names, numbers and strings replaced by the order in which they first come."""
    names = {}
    tokens = []
    for token in re.findall(r"b?'[^']*'|b?\"[^\"]*\"|\w+|[^\s\w]", re.sub(r"//.*", "", body)):
        if token in KEYWORDS or not re.match(r"[\w'\"]", token):
            tokens.append(token)
        elif re.match(r"\d|b?['\"]", token):
            tokens.append("#")
        else:
            tokens.append(str(names.setdefault(token, len(names))))
    return tuple(tokens)


def show(title, rows):
    print(f"\n{title}: {len(rows)}")
    for row in rows:
        print("  " + row)


def main():
    commit = sys.argv[1] if len(sys.argv) > 1 else None
    texts = files(commit)
    code = [f for path, text in texts.items() for f in functions(path, text)]

    def short(path):
        return path.replace("crates/", "").replace("/src/", "/")

    def lines(pattern):
        return [f"{short(p)}:{n}: {l.strip()}" for p, t in texts.items() for n, l in enumerate(t.split("\n"), 1) if re.search(pattern, l) and not l.strip().startswith(("//", "ghost use", "use ", "pub use"))]

    show("1a functions that answer a refusal as an Option", [f"{short(f[0])}:{f[1]}: {f[2]}" for f in code if re.search(r"-> Option<\w*Refusal>", f[3])])
    show("1b variants that say that something was refused", lines(r"^\s*Refused\s*[({,]"))
    show("1c numbers in place of none, by their comments", [f"{short(p)}:{n}: {l.strip()}" for p, t in texts.items() for n, l in enumerate(t.split("\n"), 1) if l.strip().startswith("///") and re.search(r"if none|or the number of|\b0 (where|if) it is|is no item|All is 0|blank after|0 is no ", l)])
    show("1d numbers for kinds or refusals in fields", [r for r in lines(r"^\s*(pub(\(crate\))? )?(number|kind|code)\b.*: u\d+") if "fn " not in r])

    groups = collections.defaultdict(list)
    for f in code:
        s = shape(f[5])
        if len(s) >= 8 and "proved" not in f[6]:
            groups[s].append(f"{short(f[0])}:{f[1]} {f[2]}")
    show("2a functions whose bodies have one shape", [", ".join(g) for g in groups.values() if len(g) > 1])
    consts = collections.defaultdict(list)
    for p, t in texts.items():
        for n, l in enumerate(t.split("\n"), 1):
            c = re.match(r"\s*(?:pub(?:\(crate\))? )?const (\w+): \w+ = ([\d_]+);", l)
            if c:
                consts[c[2].replace("_", "")].append(f"{short(p)}:{n} {c[1]}")
    show("2b constants of one value", [", ".join(g) for g in consts.values() if len(g) > 1])
    types = collections.defaultdict(list)
    for p, t in texts.items():
        for n, l in enumerate(t.split("\n"), 1):
            c = re.match(r"\s*(?:pub(?:\(crate\))? )?(?:struct|enum|trait) (\w+)", l)
            if c:
                types[c[1]].append(f"{short(p)}:{n} {c[1]}")
    show("2c types of one name", [", ".join(g) for g in types.values() if len(g) > 1])
    names = collections.defaultdict(list)
    for f in code:
        names[f[2]].append(f"{short(f[0])}:{f[1]}")
    show("2d functions of one name", [f"{n}: " + ", ".join(g) for n, g in sorted(names.items()) if len(g) > 1])

    show("3a loops over numbers", lines(r"\bfor \w+ in \(?[\w.\[\]]*\.\.|\bwhile\b"))
    show("3b loops over a slice with its index", lines(r"\bfor \(\w+, \w+\) in .*enumerate"))

    show("4a functions that print", lines(r"\bfn print_\w+"))
    show("4b casts", lines(r"\bas (u8|u16|u32|u64|usize|i64|char)\b"))
    show("4c numbers and tasks of refusals", lines(r"\bfn (number\(self\) -> u8|task\(self\) -> Option<usize>)"))
    show("4d results and options taken apart and put together again", [f"{short(f[0])}:{f[1]}: {f[2]}" for f in code if re.search(r"(Ok|Some)\((\(\)|\w+)\) =>", f[5]) and re.search(r"(Err\(\w+\)|None) =>", f[5])])
    show("4e blank values written out", lines(r"\bconst (BLANK|NONE|NO_\w+)\b"))

    facts = collections.defaultdict(list)
    for f in code:
        for c in re.findall(r"requires(?: \w+)? \{ ((?:[^{}]|\{[^{}]*\})*) \}", f[4]):
            for part in re.split(r" × (?![^()]*\))", c.strip("()")) if " × " in c else [c]:
                facts[re.sub(r"\.(now|old)\b", "", part.strip("() "))].append(f[2])
    show("5a facts that three contracts or more ask for", [f"{len(g)}: {n}" for n, g in sorted(facts.items(), key=lambda x: -len(x[1])) if len(g) > 2])
    parts = collections.defaultdict(list)
    for f in code:
        inner = re.search(r"\((.*?)\)(?: ->|$| \{| requires)", f[3].replace("( ", "("))
        if not inner:
            continue
        params = [p.strip() for p in inner[1].split(",") if ":" in p]
        params = sorted({p.split(":")[0].replace("mut ", "").strip() for p in params} - {"rt"})
        for i in range(len(params)):
            for j in range(i + 1, len(params)):
                parts[params[i], params[j]].append(f"{short(f[0]).split('/')[0]}::{f[2]}")
    show("5b two parameters that go together in four functions of a crate or more", [f"{len(g)}: {a}, {b}" for (a, b), g in sorted(parts.items(), key=lambda x: -len(x[1])) if len(g) > 3])

    structs = []
    for p, t in texts.items():
        for m in re.finditer(r"struct (\w+)[^{;]*\{(.*?)\n\s*\}", t, re.S):
            if re.search(r"\[[^\]]+; \w+\]", m[2]) and re.search(r": usize", m[2]):
                structs.append(f"{short(p)}: {m[1]}")
    show("6a structs with a table and a count", structs)
    show("6b functions that take or answer a count beside a table", [f"{short(f[0])}:{f[1]}: {f[2]}" for f in code if re.search(r"\[[^\]]+; \w+\]|&mut \[", f[3]) and (re.search(r"\b(count|cores|tasks|items|depth|n): usize", f[3]) or re.search(r"&mut \[[^)]*\) -> usize", f[3]))])

    show("7 enums without fields, whose matches choose what to do", [f"{short(p)}: {m[1]}" for p, t in texts.items() for m in re.finditer(r"enum (\w+) \{([^{}()]*?)\n\}", t)])


if __name__ == "__main__":
    main()
