#!/usr/bin/env python3
"""Brings the repository's own definitions and lemmas to today's spelling: snake case, types and modules in camel case.

usage: tools/respell.py [--check] [ROOT]

It reads which names the files of specs/ and proofs/ declare, and writes each of them anew wherever it stands as a whole word: in specs/, in proofs/ and
in the clauses of src/; in comments, README.md and docs/ only between back quotes, or where no English word is spelled so. A lemma that would come to
have the name of a definition gets `_lem` (LEMMAS). Names of src/, of C and of files stay. A second run changes nothing. It goes by text: `rt check`
decides. Ends with 1 where two names of one file fall together, and then writes nothing."""
import glob
import os
import re
import sys

# lemmas whose new name is that of a definition, which several files import beside them
LEMMAS = {
    "number-line", "value-at", "answer-of", "server-at", "outside-by", "name-at", "composed-bytes", "cursor-after", "watched-rate", "on-path",
    "lowest-crowded", "after-group", "keeps-all",
}
# lemmas that port.py has spelled already, each with the definition whose name it would take, by file
SPELLED = {
    "runs/specs/RunTestLaws.antt": {"in_order": "inOrder", "each_of": "eachOf"},
    "runs/specs/MistakeLaws.antt": {"in_order": "inOrder"},
    "showing/specs/ReadLaws.antt": {"one_line": "oneLine"},
}
WORD = r"[^\s(){}.;,@\"«»`\[\]\\:]+"
TOKEN = re.compile(WORD)
DECLARED = re.compile(r"^\s*(?:(?:abbrev|unfoldable|pub|data|record) )*(%s)(?: [({].*)? :(?: |$)" % WORD)


def elsewhere(text, crates):
    """The names that a file imports from other repositories' modules."""
    names = set()
    for found in re.finditer(r"^(?:ghost )?(?:pub )?use (\S+)\.\{([^}]*)\}", text, re.M):
        if not re.match(r"Rattle\.(%s)\." % "|".join(crates), found.group(1)):
            names |= {n.strip() for n in found.group(2).split(",")}
    return names


def spelled(name):
    """The name in today's spelling."""
    if name in LEMMAS:
        return name.replace("-", "_") + "_lem"
    new = name.replace("getD", "get_or").replace("-", "_")
    if not name[0].isupper() or "-" in name:
        new = re.sub(r"([a-z0-9])([A-Z])", r"\1_\2", new).lower()
    return new


def declared(root):
    names = set()
    for path in glob.glob(root + "/crates/*/specs/**/*.antt", recursive=True) + glob.glob(root + "/crates/*/proofs/**/*.antt", recursive=True):
        if re.search(r"/proofs/.+/(Proof|Answers|Invariants)\.antt$", path):
            continue
        for line in open(path, encoding="utf-8"):
            found = DECLARED.match(line)
            if found and not line.lstrip().startswith(("--", "use ", "let ")):
                name = found.group(1)
                if re.match(r"\w[\w'₀-₉′-]*$", name) and spelled(name) != name:
                    names.add(name)
    return names


def turned(text, names, comment):
    """The text with each of the names, as a whole word, in its new spelling; of a comment what is quoted, and names in camel case."""

    def one(found):
        name = found.group(0)
        return spelled(name) if name in names else name

    if not comment:
        return TOKEN.sub(one, text)
    text = re.sub(r"`[^`\n]*`", lambda q: TOKEN.sub(one, q.group(0)), text)
    return re.sub(r"\b[a-z]+[A-Z]\w*\b(?!-)", one, text)


def of_source(text, names, mark):
    lines = []
    for line in text.split("\n"):
        at = line.find(mark)
        if at < 0:
            lines.append(turned(line, names, False))
        else:
            lines.append(turned(line[:at], names, False) + turned(line[at:], names, True))
    return "\n".join(lines)


def of_rust(text, names):
    """Clauses, `ghost` lines and comments; the code has no such names."""
    return of_source(text, {n for n in names}, "//")


def together(text, names):
    """Two names that a file declares or imports and that get one spelling."""
    seen = {}
    for found in re.finditer(r"^(?:ghost )?use \S+\.\{([^}]*)\}", text, re.M):
        for name in found.group(1).split(","):
            seen.setdefault(spelled_if(name.strip().split(" as ")[-1], names), set()).add(name.strip().split(" as ")[-1])
    for line in text.split("\n"):
        found = DECLARED.match(line)
        if found and not line.startswith((" ", "--", "use ")):
            seen.setdefault(spelled_if(found.group(1), names), set()).add(found.group(1))
    return [sorted(v) for v in seen.values() if len(v) > 1]


def spelled_if(name, names):
    return spelled(name) if name in names else name


def main(argv):
    check = "--check" in argv
    rest = [a for a in argv if a != "--check"]
    root = rest[0] if rest else os.path.join(os.path.dirname(os.path.abspath(__file__)), "..")
    crates = sorted(os.path.basename(c) for c in glob.glob(root + "/crates/*"))
    every = declared(root)
    out, bad = {}, []
    for path in sorted(glob.glob(root + "/crates/**/*.antt", recursive=True) + glob.glob(root + "/crates/*/src/**/*.rt", recursive=True)):
        if "/out/" in path:
            continue
        text = first = open(path, encoding="utf-8").read()
        for lemma, definition in SPELLED.get("/".join(path.split("/")[-3:]), {}).items():
            if re.search(r"\b%s\b" % definition, text):
                text = TOKEN.sub(lambda f: lemma + "_lem" if f.group(0) == lemma else f.group(0), text)
        names = every - elsewhere(text, crates)
        bad += [(path, pair) for pair in together(text, names)]
        out[path] = (first, of_rust(text, names) if path.endswith(".rt") else of_source(text, names, "--"))
    for path in [root + "/README.md"] + sorted(glob.glob(root + "/docs/*.md")):
        if os.path.exists(path) and not os.path.basename(path).startswith("PORT"):
            text = open(path, encoding="utf-8").read()
            out[path] = (text, turned(text, every, True))
    for path, pair in bad:
        print("%s: %s fall together" % (path, " and ".join(pair)))
    changed = [path for path, (old, new) in out.items() if old != new]
    print("respell: %d names, %d files" % (len(every), len(changed)))
    if bad or check:
        return 1 if bad else 0
    for path in changed:
        with open(path, "w", encoding="utf-8") as f:
            f.write(out[path][1])
    return 0


if __name__ == "__main__":
    sys.exit(main(sys.argv[1:]))
