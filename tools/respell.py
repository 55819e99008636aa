#!/usr/bin/env python3
"""Respells this repository's own definitions and lemmas: snake case for words, upper camel case for types.

usage: tools/respell.py        at the top, once, on what port.py wrote

    isLetter, run-stop, Field-at  ->  is_letter, run_stop, FieldAt

A name in camel case is respelled wherever it stands outside a string. A name with a dash is respelled where a file of specs/ or proofs/
defines it, in the files that bring it in, and as a record's field. Names that fall together in a file are printed, and get `_lem`.
Functions, types, strings and comments of src/ keep their spelling, but for the names of definitions in clauses and comments.
"""
import collections
import glob
import re
import sys

WORD = r"[^\s(){}.;,@\"«»\[\]\\]+"
TOKEN = re.compile(r"--[^\n]*|\"(?:[^\"\\\n]|\\.)*\"|«[^»]*»|" + WORD)
CAMEL = re.compile(r"(?<=[a-z0-9])[A-Z]+")
DEFINES = re.compile(r"^(\s*)((?:(?:abbrev|unfoldable|record|data|pub|opaque)\s+)*)([^\s:(){},.λ]+)(\s*[({][^\n]*?)?\s*:(?=\s|$)", re.M)
USE = re.compile(r"^use (Rattle\.[\w.+-]+?)(?:\.\{([^}]*)\}| as (\S+))\s*$", re.M | re.S)


def read(path):
    with open(path, encoding="utf-8") as f:
        return f.read()


def camel(w):
    return "-".join(CAMEL.sub(lambda m: "_" + m.group().lower(), p) if p[:1].islower() else p for p in w.split("-"))


def plain(w):
    """A dashed name of ours in its new spelling."""
    if w[:1].isupper():
        return "".join(p[:1].upper() + p[1:] for p in w.split("-"))
    return w.replace("-", "_")


def dashed(w):
    return "-" in w and re.fullmatch(r"[\w'₀-₉-]+", w) is not None and not w.startswith("-")


def main():
    own = {p.split("/")[1] for p in glob.glob("crates/*/src")}
    antt = sorted(p for p in glob.glob("crates/*/specs/**/*.antt", recursive=True) + glob.glob("crates/*/proofs/**/*.antt", recursive=True) if "/out/" not in p)
    rts = sorted(glob.glob("crates/*/src/**/*.rt", recursive=True))
    defined, fields, snake = collections.defaultdict(set), set(), collections.defaultdict(set)
    for p in antt:
        t = read(p)
        generated = p.endswith("/Proof.antt")
        for m in DEFINES.finditer(t):
            if m.group(3) in ("use", "let", "where", "module"):
                continue
            if not dashed(m.group(3)):
                if "/proofs/" in p and not generated and not m.group(2).strip().startswith(("abbrev", "unfoldable", "record", "data")) and re.fullmatch(r"[a-z]\w*_\w*", m.group(3)):
                    snake[p].add(m.group(3))
                continue
            if generated and re.match(r"\s*(tie|lts)\.", t[m.end():]):
                continue
            if generated and m.group(3).endswith("-spec"):
                continue
            defined[p].add(m.group(3))
            if m.group(1) and m.group(2).strip() in ("", "pub"):
                fields.add(m.group(3))

    def module(p):
        c, kind, rest = re.match(r"crates/(\w+)/(specs|proofs)/(.*)\.antt$", p).groups()
        return f"Rattle.{c}.{kind}." + rest.replace("/", ".")

    of_module = {module(p): defined[p] | snake[p] for p in antt}
    suffix = set()
    for attempt in (1, 2):
        said = []
        texts = {}
        for p in antt:
            t = read(p)
            names = defined[p] | snake[p]
            aliases = {}
            for m in USE.finditer(t):
                theirs = of_module.get(m.group(1), set())
                if m.group(2) is not None:
                    for item in m.group(2).split(","):
                        w = item.split(" as ")[0].strip()
                        if w in theirs:
                            names.add(w)
                elif theirs:
                    aliases[m.group(3)] = theirs
            mapping = {}

            def turn(w):
                n = camel(w)
                if w in names:
                    n = plain(n)
                    if w in suffix:
                        n += "_lem"
                mapping[w] = n
                return n

            out, at = [], 0
            for m in TOKEN.finditer(t):
                w = m.group()
                out.append(t[at:m.start()])
                at = m.end()
                if w.startswith("--"):
                    out.append(re.sub(r"[A-Za-z_][\w]*", lambda x: camel(x.group()), w))
                    continue
                if w[0] in "\"«":
                    out.append(w)
                    continue
                before = m.start() and t[m.start() - 1] == "." and re.search(r"([^\s(){};,@]*)\.$", t[max(0, m.start() - 300):m.start()])
                if before and (dashed(w) or w in suffix):
                    base = before.group(1).split(".")
                    last = base[-1]
                    if last in aliases and w in aliases[last]:
                        out.append(plain(camel(w)) + ("_lem" if w in suffix else ""))
                        continue
                    if w in fields and last not in ("before", "tie", "lts", "reads", "goal") and not (len(base) == 1 and last in ("c", "tie")):
                        out.append(plain(camel(w)))
                        continue
                    out.append(camel(w))
                    continue
                if not before and dashed(w) and w in fields and w not in names and re.match(r"\s*=(?=\s)", t[m.end():]):
                    out.append(plain(camel(w)))
                    continue
                out.append(turn(w))
            out.append(t[at:])
            texts[p] = "".join(out)
            back = collections.defaultdict(set)
            for w, n in mapping.items():
                back[n].add(w)
            for n, ws in back.items():
                if len(ws) > 1:
                    said.append((p, n, sorted(ws)))
                    suffix.update([w for w in ws if w in names and dashed(w)] or [w for w in ws if w in names])
        if attempt == 1:
            first = said
    for p, n, ws in first:
        print(f"fell together: {p}: {', '.join(ws)} -> {n}")
    for p, n, ws in said:
        print(f"STILL together: {p}: {', '.join(ws)} -> {n}")
    print("with _lem:", ", ".join(sorted(suffix)))
    for p in rts:
        t = read(p)
        names = set()
        for m in re.finditer(r"ghost use (Rattle\.[\w.]+)\.\{([^}]*)\};", t):
            for item in m.group(2).split(","):
                w = item.split(" as ")[0].strip()
                if w in of_module.get(m.group(1), set()):
                    names.add(w)

        def one(m):
            w = m.group()
            if w[0] in "\"'":
                return w
            return camel(w)

        t2 = re.sub(r"\"(?:[^\"\\]|\\.)*\"|'(?:[^'\\]|\\.)'|(?<![\w'])[a-z][A-Za-z0-9_]*", one, t)
        for w in names | fields:
            t2 = re.sub(r"(?<![\w.-])" + re.escape(w) + r"(?![\w-])" if w in names else r"(?<=\.)" + re.escape(w) + r"(?![\w-])", plain(camel(w)), t2)
        texts[p] = t2
    for p, t in texts.items():
        if t != read(p):
            with open(p, "w", encoding="utf-8") as f:
                f.write(t)
    return 0


if __name__ == "__main__":
    sys.exit(main())
