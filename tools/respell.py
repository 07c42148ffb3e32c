#!/usr/bin/env python3
"""Brings the repository's own definitions and lemmas to snake case: run once, after the kit's port.py. `--look` only lists what falls together."""
import os
import re
import sys

ROOT = os.path.join(os.path.dirname(os.path.abspath(__file__)), "..", "crates")
WORD = re.compile(r"[^\s(){}\[\],.;:λ≡→×⊎¬∙∷=|\"`]+")
DECL = re.compile(r"^(?:  )*(?:unfoldable |abbrev |pub |ruleset )*([^\s(){}\[\],.;λ]+)(?: :| =|$)")
LET = re.compile(r"\blet ([^\s(){}\[\],.;]+)(?: :| =)")


def files():
    for folder, dirs, names in os.walk(ROOT):
        dirs[:] = sorted(d for d in dirs if d != "out")
        for n in sorted(names):
            if n.endswith((".antt", ".rt")):
                yield os.path.join(folder, n)


def snake(n):
    parts = n.split("-")
    out = []
    for p in parts:
        p = re.sub(r"(?<=[a-z0-9])([A-Z])(?=[a-z])", lambda m: "_" + m.group(1).lower(), p)
        p = re.sub(r"(?<=[a-z0-9])([A-Z]+)(?=$|[^A-Za-z])", lambda m: "_" + m.group(1).lower(), p)
        out.append(p)
    return "_".join(out)


def code(line):
    return line.split("--")[0] if line.lstrip().startswith("--") else line


def contracts():
    """`Contracts` differs from the module `contracts` that rattle makes only in case, so those files are called InnerContracts."""
    for p in list(files()):
        with open(p, encoding="utf-8") as f:
            t = f.read()
        new = re.sub(r"(?<![\w])specs\.Contracts(?![\w])", "specs.InnerContracts", t)
        new = re.sub(r"(?m)^pub mod Contracts$", "pub mod InnerContracts", new)
        if new != t:
            with open(p, "w", encoding="utf-8") as f:
                f.write(new)
        if p.endswith("/specs/Contracts.antt"):
            os.rename(p, p[: -len("Contracts.antt")] + "InnerContracts.antt")


def main():
    look = "--look" in sys.argv
    if not look:
        contracts()
    own, std, texts = {}, set(), {}
    for p in files():
        with open(p, encoding="utf-8") as f:
            texts[p] = f.read()
    for p, t in texts.items():
        for m in re.finditer(r"^(?:pub )?(?:ghost )?use ([^\s{;]+)(?:\.\{([^}]*)\})?", t, re.M):
            if not m.group(1).startswith("Rattle.") or m.group(1).startswith("Rattle.std.") or "declared" in m.group(1):
                for n in (m.group(2) or "").split(","):
                    std.add(n.strip().split(" as ")[0])
        if not p.endswith(".antt"):
            continue
        made = bool(re.search(r"/proofs/.*(Proof|Answers|Invariants)\.antt$", p))
        for line in t.splitlines():
            if line.lstrip().startswith("--"):
                continue
            m = DECL.match(line)
            if m and not made:
                own.setdefault(m.group(1), set()).add(p)
            for m in LET.finditer(line):
                own.setdefault(m.group(1), set()).add(p)
    words = {}
    for p, t in texts.items():
        for w in WORD.findall(t):
            words.setdefault(w, set()).add(p)
    turn = {}
    for n in sorted(own):
        if n in std or n.startswith("◌") or not re.match(r"[a-z]", n):
            continue
        if "-" in n or re.search(r"[a-z0-9][A-Z]", n):
            new = snake(n)
            if "-" in n and (new in own or any(snake(o) == new and o != n for o in own)):
                new += "_lem"
            if new != n:
                turn[n] = new
    # A lemma that the kit's script had already turned to what is now a definition's name.
    for n in sorted(own):
        if n not in std and "-" not in n and re.match(r"[a-z]", n) and snake(n) == n and any(snake(o) == n and "-" not in o and o != n for o in own) and all("/proofs/" in p for p in own[n]):
            turn[n] = n + "_lem"
    clash = 0
    back = {}
    for n, new in turn.items():
        back.setdefault(new, []).append(n)
    for new, olds in sorted(back.items()):
        if len(olds) > 1:
            clash += 1
            print("two:", new, olds, [sorted(os.path.relpath(x, ROOT) for x in own[o])[:3] for o in olds])
        if new in words and new not in turn:
            for o in olds:
                both = words[new] & words.get(o, set())
                if both or new in own or new in std:
                    clash += 1
                    print("there:", o, "->", new, "in", sorted(os.path.relpath(x, ROOT) for x in both)[:4], "declared" if new in own else "", "std" if new in std else "", [os.path.relpath(x, ROOT) for x in sorted(own.get(new, []))[:2]])
    for p, t in texts.items():
        if p.endswith(".rt"):
            for m in re.finditer(r"\b([a-z_0-9]+): ", t):
                if m.group(1) in back and any(o in WORD.findall(t) for o in back[m.group(1)]):
                    print("hidden:", m.group(1), os.path.relpath(p, ROOT))
    print(f"{len(turn)} names, {clash} to look at")
    if look:
        return
    for p, t in texts.items():
        new = respelled(t, turn) if p.endswith(".antt") else ghosts(t, turn)
        if new != t:
            with open(p, "w", encoding="utf-8") as f:
                f.write(new)


def respelled(text, turn):
    def word(m):
        n = m.group(0)
        # A path's last part may be a function of src/ or what rattle makes for it.
        if turn.get(n, n) == n + "_lem" and text[m.start() - 1 : m.start()] == ".":
            return n
        return turn.get(n, n)

    return WORD.sub(word, text)


def ghosts(text, turn):
    """In code only ghost imports and clauses are respelled: functions of src/ keep their names."""
    out = []
    depth = 0
    for line in text.splitlines(keepends=True):
        clause = re.match(r"\s*(?:ghost|requires|ensures)\b", line)
        if clause or depth:
            line = respelled(line, turn)
            depth = max(0, depth + line.count("{") - line.count("}"))
        out.append(line)
    return "".join(out)


main()
