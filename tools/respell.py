#!/usr/bin/env python3
"""Brings the repository's own definitions and lemmas to today's spelling: words in snake case, types in upper camel case.

usage: tools/respell.py [--check]      at the top of the repository, once, after the kit's own port.py

It reads which names specs/ and proofs/ declare, and writes those with a hump anew in every .antt file, in clauses and ghost
lines of .rt files, in must-fail edits, and between backticks in documents. Names of Rust functions, types and variants, of
files and of the library stay, and so does a dash between the words of a lemma's name, as in the library's. Names that would
fall together, or meet another word of a file, are printed, and nothing is written then.
"""
import collections
import os
import re
import sys

TOKEN = r"[^\s(){}.;,@\"«»]+"
DECLARED = re.compile(r"^ *(?:(?:pub|abbrev|unfoldable|private) )*(" + TOKEN + r")(?: \{[^{}\n]*\})* :(?: |$)")
ALIAS = re.compile(r"\bas (" + TOKEN + r")")
# predicates on types, spelled like values
TYPES = {"heardBy": "HeardBy", "unlessBack": "UnlessBack"}
# where the plain spelling is a field's or a lemma's beside it
OTHERS = {"scanResult": "scan_result_of", "joinBy": "join_by", "join_by": "join-by"}


def respelled(name):
    if name in TYPES:
        return TYPES[name]
    if name in OTHERS:
        return OTHERS[name]
    name = re.sub(r"\bgetD(?=\b|-|_|[A-Z])", "get_or", name)
    name = re.sub(r"^get_d_", "get_or_", name)
    return re.sub(r"(?<=[a-z0-9])[A-Z]", lambda m: "_" + m[0].lower(), name)


def texts(*folders, ends):
    for top, dirs, files in os.walk("crates"):
        dirs[:] = sorted(d for d in dirs if d != "out")
        inside = top.split(os.sep)[2:3]
        for f in sorted(files):
            if inside and inside[0] in folders and f.endswith(ends):
                yield os.path.join(top, f)


def read(path):
    with open(path, encoding="utf-8") as f:
        return f.read()


def own():
    """Each declared name with its new spelling; a walk's own goals (Proof.antt) are no names of the repository."""
    names = set()
    for p in texts("specs", "proofs", ends=".antt"):
        if os.path.basename(p) == "Proof.antt":
            continue
        for line in read(p).splitlines():
            m = DECLARED.match(line)
            if m and not line.lstrip().startswith("--"):
                names.add(m[1])
    names = {n for n in names if re.match(r"[a-z]", n) and "◌" not in n}
    return {n: respelled(n) for n in sorted(names) if respelled(n) != n}, names


def turn_antt(text, table):
    """Code alone; of a comment what stands between backticks."""
    out = []
    for line in text.split("\n"):
        if line.lstrip().startswith("--"):
            line = re.sub(r"`[^`]*`", lambda m: turn_words(m[0], table), line)
        else:
            line = turn_words(line, table)
        out.append(line)
    return "\n".join(out)


def turn_words(text, table):
    return re.sub(r"[^\s(){}.;,@\"«»`]+", lambda m: table.get(m[0], m[0]), text)


CLAUSE = re.compile(r"^\s*(?:requires|ensures|ghost|unfolding)\b")


def turn_rt(text, table):
    """Ghost lines and clauses, which may go on over several lines; of comments what stands between backticks."""
    out, depth = [], 0
    for line in text.split("\n"):
        if line.lstrip().startswith("//"):
            out.append(re.sub(r"`[^`]*`", lambda m: turn_words(m[0], table), line))
            continue
        if depth == 0 and not CLAUSE.match(line):
            out.append(line)
            continue
        depth += line.count("{") - line.count("}")
        out.append(turn_words(line, table))
    return "\n".join(out)


def turn_edit(text, table):
    out, kind = [], ""
    for line in text.split("\n"):
        if line.startswith("file: "):
            kind = line
        if line.startswith(("old: ", "new: ")):
            line = line[:5] + (turn_words(line[5:], table) if ".antt" in kind else turn_rt(line[5:], table))
        out.append(line)
    return "\n".join(out)


def turn_page(text, table):
    return re.sub(r"`[^`\n]*`", lambda m: turn_words(m[0], table), text)


def clashes(table):
    said = []
    groups = collections.defaultdict(set)
    for old, new in table.items():
        groups[new].add(old)
    for p in list(texts("specs", "proofs", ends=".antt")) + list(texts("src", ends=".rt")):
        t = read(p)
        code = "\n".join(l for l in t.split("\n") if not l.lstrip().startswith(("--", "//")))
        words = set(re.findall(r"(?<!\.)(?<![^\s(){};,@])[^\s(){}.;,@\"«»`]+(?![^\s(){};,@\"«»`])", code))
        if p.endswith(".rt"):
            ghost = set(re.findall(r"[^\s(){}.;,@\"«»`]+", " ".join(re.findall(r"ghost use [^;]*;", t))))
            for old in ghost & set(table):
                new = table[old]
                if re.search(r"(?<![\w.:])(?:let (?:mut )?" + re.escape(new) + r"\b|" + re.escape(new) + r"\s*:(?!:))", t):
                    said.append(f"{p}: {old} would be {new}, which the file has")
            continue
        for old in words & set(table):
            new = table[old]
            if new in words and new not in table:
                said.append(f"{p}: {old} would be {new}, which the file has")
            for other in groups[new] - {old}:
                if other in words:
                    said.append(f"{p}: {old} and {other} would both be {new}")
    return sorted(set(said))


def main(argv):
    table, names = own()
    if "--table" in argv:
        for a, b in table.items():
            print(a, b)
        return 0
    said = clashes(table)
    if said:
        print("\n".join(said))
        return 1
    if "--check" in argv:
        return 0
    n = 0
    for paths, turn in (
        (texts("specs", "proofs", ends=".antt"), turn_antt),
        (texts("src", ends=".rt"), turn_rt),
        (texts("must-fail", ends=".edit"), turn_edit),
        ((os.path.join(d, f) for d, _, fs in list(os.walk("docs")) + [(".", [], ["README.md"])] for f in fs if f.endswith(".md")), turn_page),
    ):
        for p in list(paths):
            t = read(p)
            u = turn(t, table)
            if u != t:
                with open(p, "w", encoding="utf-8") as f:
                    f.write(u)
                n += 1
    print(f"respelled: {len(table)} names in {n} files")
    return 0


if __name__ == "__main__":
    sys.exit(main(sys.argv[1:]))
