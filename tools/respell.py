#!/usr/bin/env python3
"""Brings the repository's own definitions, lemmas and labels to today's spelling: words in snake case, types in
upper camel case. It reads crates/ of the folder that it is run in, and rewrites specs/, proofs/, the ghost parts of
src/, and names in backticks in comments, README.md and docs/. Names of the library, of Rust code and those that the
check makes keep theirs. It was run once, after the kit's port.py.

usage: python3 tools/respell.py [--dry]
"""
import glob
import os
import re
import sys

NAME = r"[^\s(){}\[\];,.:\"`λ→⟨⟩|]+"
TOKEN = re.compile(NAME)
SIGNATURE = re.compile(r"^\s*(?:(?:pub|abbrev|unfoldable|data|record)\s+)*([^\s:(){}\[\];,.]+(?:\s+[^\s:(){}\[\];,.]+)*)\s*:(?!:)")
KEBAB = re.compile(r"[A-Za-z0-9_'κ₀-₉]+(?:-[A-Za-z0-9_'κ₀-₉]+)+")
CAMEL = re.compile(r"[A-Z][A-Za-z0-9']*[a-z][A-Za-z0-9']*(?:[-_][A-Za-z0-9']+)+")
# Facts that were spelled as words.
TYPES = {
    "drops-to": "DropsTo", "drops_to": "DropsTo", "exists-after": "ExistsAfter", "exists_after": "ExistsAfter",
    "count-after": "CountAfter", "count_after": "CountAfter", "leads-after": "LeadsAfter", "leads_after": "LeadsAfter", "all-done": "AllDone", "all_done": "AllDone",
}


def text(path):
    with open(path, encoding="utf-8") as f:
        return f.read()


def own_crates():
    return {os.path.basename(os.path.dirname(p)) for p in glob.glob("crates/*/src")}


def is_own(path, crates):
    parts = path.split(".")
    return parts[0] == "Rattle" and len(parts) > 1 and parts[1] in crates


def imports(t):
    for m in re.finditer(r"^\s*(?:pub )?(?:ghost )?use\s+([^\s{;]+?)(?:\.\{([^}]*)\})?(?:\s+as\s+\S+)?;?$", t, re.M):
        yield m.group(1), [n for n in re.split(r"[,\s]+", m.group(2) or "") if n and n != "as"]


def respelled(name):
    if name in TYPES:
        return TYPES[name]
    if CAMEL.fullmatch(name):
        return "".join(p[:1].upper() + p[1:] for p in re.split(r"[-_]", name) if p)
    if KEBAB.fullmatch(name):
        return name.replace("-", "_")
    return name


def by_hand(path):
    """A function's proof that walks its code, whose names the check makes."""
    return os.path.basename(path) == "Proof.antt"


def definitions(crates):
    """The repository's names that change: those that definitions and lemmas use and no library gives."""
    found = set()
    for p in glob.glob("crates/*/specs/**/*.antt", recursive=True) + glob.glob("crates/*/proofs/**/*.antt", recursive=True):
        if by_hand(p):
            continue
        t = re.sub(r"--.*", "", text(p))
        kit = {n for source, items in imports(t) if not is_own(source, crates) for n in items}
        found.update(n for n in TOKEN.findall(t) if respelled(n) != n and n not in kit)
    return found


def split_comment(line, mark):
    i = line.find(mark)
    return (line, "") if i < 0 else (line[:i], line[i:])


def in_backticks(s, names):
    def one(m):
        return "`" + TOKEN.sub(lambda w: respelled(w.group(0)) if w.group(0) in names else w.group(0), m.group(1)) + "`"

    return re.sub(r"`([^`]+)`", one, s)


def turn_antt(path, crates, names):
    t = text(path)
    kit, own = set(), set()
    for source, items in imports(t):
        (own if is_own(source, crates) else kit).update(items)
    hand = by_hand(path)
    local = set()
    if hand:
        for line in re.sub(r"--.*", "", t).split("\n"):
            m = SIGNATURE.match(line)
            if m and not re.search(r":\s*tie\.", line):
                local.update(m.group(1).split())

    def turned(code):
        def one(m):
            n, before = m.group(0), code[: m.start()]
            if n in kit or respelled(n) == n:
                return n
            if hand:
                chain = re.search(r"([^\s(){}\[\];,:]*)\.$", before)
                if chain and re.match(r"(?:c|l|tie|κs)(?:\.|$)", chain.group(1)):
                    return n
                if not chain and n not in own and n not in local:
                    return n
            return respelled(n)

        return TOKEN.sub(one, code)

    out = []
    for line in t.split("\n"):
        code, comment = split_comment(line, "--")
        if hand and re.match(r"\s*use .*\.proofs\.", code) and re.search(r"\.(Statement|Tie|Reads|Lts)\b", code):
            out.append(code + in_backticks(comment, names))
            continue
        out.append(turned(code) + in_backticks(comment, names))
    return t, "\n".join(out)


def turn_rt(path, crates, names):
    t = text(path)
    pattern = re.compile(r"(?<![\w'-])[A-Za-z0-9_'₀-₉]+(?:[-_][A-Za-z0-9_'₀-₉]+)+(?![\w'-])")
    own = {n for source, items in imports(t) if is_own(source, crates) for n in items}
    out, depth, clause, use = [], 0, False, False
    for line in t.split("\n"):
        code, comment = split_comment(line, "//")
        begins = re.match(r"\s*(?:requires|ensures|invariant|ghost)\b", code)
        if clause or begins:
            code = pattern.sub(lambda m: respelled(m.group(0)) if m.group(0) in names or m.group(0) in own else m.group(0), code)
            depth += code.count("{") - code.count("}")
            clause = depth > 0 or bool(begins and "{" not in code and not code.rstrip().endswith(";"))
            if depth <= 0:
                depth, clause = 0, clause and depth > 0
        out.append(code + in_backticks(comment, names))
    return t, "\n".join(out)


def fall_together(names):
    seen = {}
    for n in sorted(names):
        seen.setdefault(respelled(n), []).append(n)
    return {k: v for k, v in seen.items() if len(v) > 1}


def main():
    dry = "--dry" in sys.argv
    crates = own_crates()
    names = definitions(crates)
    for k, v in fall_together(names).items():
        print("fall together:", k, v)
    changed = 0
    files = [(p, turn_antt) for p in glob.glob("crates/*/specs/**/*.antt", recursive=True) + glob.glob("crates/*/proofs/**/*.antt", recursive=True)]
    files += [(p, turn_rt) for p in glob.glob("crates/*/src/**/*.rt", recursive=True)]
    for p, turn in files:
        old, new = turn(p, crates, names)
        if new != old:
            changed += 1
            if not dry:
                with open(p, "w", encoding="utf-8") as f:
                    f.write(new)
    for p in ["README.md"] + glob.glob("docs/**/*.md", recursive=True):
        if os.path.basename(p).startswith("PORT."):
            continue
        old = text(p)
        new = in_backticks(old, names)
        if new != old:
            changed += 1
            if not dry:
                with open(p, "w", encoding="utf-8") as f:
                    f.write(new)
    print(f"{len(names)} names, {changed} files")


if __name__ == "__main__":
    main()
