#!/usr/bin/env python3
"""Brings the repository's own definitions and lemmas to today's spelling: words in snake case, types in camel case.

usage: python3 tools/spelling.py [--list]      at the top of the repository, once, after port.py

It renames what specs/ and proofs/ declare (definitions, lemmas, fields, constructors), in every .antt and .rt file, in the edits, and in docs where a name
stands in backticks. A name that a file imports from the kit keeps its spelling there, and so does what stands behind the name of such a module. Functions of
src/, exported C names, strings, inputs and outputs are not touched. A name of a goal (`tie.Need-..`) is the kit's and stays. It stops where two names fall together.
"""
import collections
import glob
import os
import re
import sys

TOP = os.path.dirname(os.path.dirname(os.path.realpath(__file__)))
os.chdir(TOP)
W = r"[^\s(){}.;,@\"«»\[\]\\`:]+"
TOKEN = re.compile(r"--[^\n]*|\"(?:[^\"\\]|\\.)*\"|" + W + r"|\n|.", re.S)
SUB = {chr(0x2080 + i): str(i) for i in range(10)}
MODS = r"(?:(?:pub|abbrev|unfoldable|private|field)\s+)*"
DECL = re.compile(r"^(\s*)(" + MODS + r")(" + W + r")((?:\s+\{[^}]*\})*)\s*:(?=\s|$)(.*)$")
RECORD = re.compile(r"^(\s*)(" + MODS + r"(?:record|data|ruleset)\s+)(" + W + r")")
# where the rule alone would give one name to two things, or a name that is taken
BY_HAND = {
    "block_start": "block_start_lem",
    "data-of": "data_is",
    "format-there": "format_there_lem",
    "in-front": "in_front_lem",
    "in-range": "in_range_lem",
    "is-format": "is_format_lem",
    "is-not": "is_not_lem",
    "is-version": "is_version_lem",
    "list-room": "list_room_lem",
    "low-first": "low_first_lem",
    "oneMore": "one_more_kept",
    "pair_place": "pair_place_lem",
    "payload-room": "payload_room_lem",
    "value_after": "value_after_lem",
    "version-beside": "version_beside_lem",
    "version-there": "version_there_lem",
    "with-checks": "with_checks_lem",
}


def files(*patterns):
    return sorted({f for p in patterns for f in glob.glob(p, recursive=True)})


ANTT = files("crates/*/specs/**/*.antt", "crates/*/proofs/**/*.antt")
RT = files("crates/*/src/**/*.rt")


def read(p):
    with open(p, encoding="utf-8") as f:
        return f.read()


def snake(n):
    n = re.sub(r"(?<=[a-z])(?=[₀-₉])", "_", n)
    n = "".join(SUB.get(c, c) for c in n)
    n = re.sub(r"(?<=[a-z0-9])([A-Z]+)", lambda m: "_" + m.group(1).lower(), n) if n[:1].islower() else n
    n = re.sub(r"-+(?![⊕⊗])", "_", n)
    return n


def camel(n):
    n = "".join(SUB.get(c, c) for c in n)
    return "".join(p[:1].upper() + p[1:] for p in re.split(r"[-_]", n))


def declared():
    """name -> set of (file, is a type, is a field or a constructor)"""
    out = collections.defaultdict(set)
    for f in ANTT:
        text = read(f)
        lines = text.split("\n")
        inside = None
        for i, line in enumerate(lines):
            m = RECORD.match(line)
            if m:
                kind = m.group(2)
                out[m.group(3)].add((f, "ruleset" not in kind, False))
                inside = len(m.group(1)) if "ruleset" not in kind else None
                continue
            if line.strip() and inside is not None and len(line) - len(line.lstrip()) <= inside:
                inside = None
            m = DECL.match(line)
            if not m or m.group(3) in ("λ", "let", "in", "|"):
                continue
            name, rest = m.group(3), m.group(5)
            j = i + 1
            while j < len(lines) and lines[j].strip() and (rest.strip() == "" or re.match(r"\s*(→|\()", lines[j])) and len(lines[j]) - len(lines[j].lstrip()) > len(m.group(1)):
                rest += " " + lines[j].strip()
                j += 1
            if re.match(r"\s*tie\.(Need|invariant|decreases)", rest) or re.search(r"[-_]spec$", name) and "/Proof.antt" in f:
                continue
            of_type = bool(re.search(r"(^|→ |\s)Type(\s+([\dℓ]+|\([^()]*\)))?$", rest.split(" = ")[0].strip())) and inside is None
            out[name].add((f, of_type, inside is not None))
    return out


def plan():
    names = declared()
    new = {}
    for n, places in names.items():
        if n in BY_HAND:
            new[n] = BY_HAND[n]
            continue
        if re.fullmatch(r"◌.*|.*◌|𝟘|𝟙|_", n) or not re.match(r"[A-Za-z_]", n) and "-" not in n:
            continue
        is_type = any(t for _, t, _ in places)
        if n[:1].isupper() and "-" not in n and n.isascii():
            continue
        to = camel(n) if is_type else snake(n)
        if to != n:
            new[n] = to
    return names, new


def imports(text):
    """names that a file has from the kit, and the kit's modules by the names that they have in the file"""
    taken, modules = set(), set()
    for m in re.finditer(r"^\s*(?:pub )?(?:ghost )?(?:open )?use ([^\s.;{]+(?:\.[^\s.;{]+)*)(?:\.\{([^}]*)\})?(?: as (\S+))?", text, re.M):
        path, items, alias = m.groups()
        if re.match(r"Rattle\.(?!std\b|core\b|libc\b|io\b|os\b|check\b)", path):
            continue
        if items is None:
            modules.add((alias or path.split(".")[-1]).rstrip(";"))
        else:
            for it in items.split(","):
                it = it.strip()
                taken.add(it.split(" as ")[-1].strip())
    return taken, modules


def turn(text, new, fields, rust=False):
    taken, modules = imports(text)
    out, before = [], ""
    chain = []  # tokens of the current path
    use_kit = False
    for m in TOKEN.finditer(text):
        t = m.group(0)
        if t.startswith("--") or t.startswith('"') or (rust and t == "/" ):
            if t.startswith("--") and not rust:
                t = re.sub(r"`([^`]*)`", lambda k: "`" + turn(k.group(1), new, fields) + "`", t)
            out.append(t)
            continue
        if t == "\n":
            out.append(t)
            continue
        to = new.get(t)
        if to and t not in taken:
            i = len(out) - 1
            if i >= 0 and out[i] == "." and not (i >= 1 and out[i - 1].isspace()):
                head = out[i - 1] if i >= 1 else ""
                k = i - 1
                while k >= 2 and out[k - 1] == ".":
                    k -= 2
                root = out[k] if k >= 0 else ""
                own = root == "Rattle" and k + 2 < len(out) and out[k + 2] not in ("std", "core", "libc", "io", "os", "check")
                kit = root in modules or root in ("native", "lib", "mathlib", "Prim", "borrow", "mir", "denote") or root == "Rattle" and not own
                if kit or root in ("tie", "goal"):
                    to = None
                elif not (own or head[:1].isupper()) and t not in fields:
                    to = None
            out.append(to or t)
            continue
        # the items of a use of the kit's modules stay: they are in `taken`
        out.append(t)
    return "".join(out)


def main():
    names, new = plan()
    fields = {n for n, ps in names.items() if any(f for _, _, f in ps)}
    back = collections.defaultdict(list)
    for n in new:
        back[new[n]].append(n)
    bad = []
    for to, olds in back.items():
        if len(olds) > 1 or to in names and to not in new:
            bad.append((to, sorted(olds) + ([to] if to in names and to not in new else [])))
    if "--list" in sys.argv:
        for n in sorted(new):
            print(n, "->", new[n])
    for to, olds in sorted(bad):
        print("falls together:", to, {o: sorted({f for f, _, _ in names[o]})[:3] for o in olds})
    # local names and the kit's names that a new name would meet
    for f in ANTT + RT:
        text = read(f)
        taken, _ = imports(text)
        words = set(re.findall(W, re.sub(r"--[^\n]*|//[^\n]*", "", text)))
        for n in words & set(new):
            if new[n] in words and new[n] not in names or new[n] in taken and n not in taken:
                print("meets:", f, n, "->", new[n])
    if "--list" in sys.argv:
        return
    if bad and "--force" not in sys.argv:
        sys.exit(1)
    for f in ANTT:
        text = read(f)
        to = turn(text, new, fields)
        if to != text:
            open(f, "w", encoding="utf-8").write(to)
    # in the sources and the edits only names that no name of Rust can be
    antt_only = {n: t for n, t in new.items() if "-" in n or re.search(r"[a-z0-9][A-Z]", n) or not n.isascii()}
    for f in RT:
        text = read(f)
        lines = []
        for line in text.split("\n"):
            code, sep, note = line.partition("//")
            lines.append(turn(code, antt_only, fields, True) + sep + re.sub(r"`([^`]*)`", lambda k: "`" + turn(k.group(1), antt_only, fields) + "`", note))
        to = "\n".join(lines)
        if to != text:
            open(f, "w", encoding="utf-8").write(to)
    now = set(names) | set(new.values())
    word = lambda k: snake(k.group(0)) if snake(k.group(0)) in now else k.group(0)  # noqa: E731
    # in edits and docs also the names that port.py turned already
    for f in files("crates/*/must-fail/*.edit"):
        text = read(f)
        to = "\n".join(line if line.startswith("#") or line.startswith("file:") else re.sub(W, word, turn(line, antt_only, fields, True)) for line in text.split("\n"))
        if to != text:
            open(f, "w", encoding="utf-8").write(to)
    for f in files("README.md", "docs/*.md"):
        text = read(f)
        to = re.sub(r"`([^`\n]*)`", lambda k: "`" + re.sub(W, word, turn(k.group(1), antt_only, fields)) + "`", text)
        if to != text:
            open(f, "w", encoding="utf-8").write(to)


main()
