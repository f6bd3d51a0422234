#!/usr/bin/env python3
"""Brings the repository's own definitions and lemmas to the spelling of the newer prover, once.

usage: python3 tools/respell.py            at the top of the repository: rewrites crates/ in place
       python3 tools/respell.py --list     lists what would be renamed, as OLD NEW, and where names fall together

Run it behind the prover's own script, which respells the language and only some of the repository's names. Words of
specs/ and proofs/ were spelled `wordLikeThis` or `word-like-this`; now they are `word_like_this`. Types and modules
stay in upper camel case, and the names of the calculus's rules in capitals. Functions, exported names, strings, inputs
and outputs keep their names. A word of the prover's library is not touched, nor what the prover generates.

A definition and a lemma that would have one name: the lemma's ends in `_holds`. TURNED are lemmas of that kind which
the prover's script has respelled already.
"""

import collections
import os
import re
import sys

TOKEN = re.compile(r"[^\s(){}\[\],;.:\"@⌜⌝]+")
USE = re.compile(r"^(\s*(?:pub )?(?:ghost )?(?:pub )?use )([\w·.'+-]+?)(?:\.\{(.*)\})?( as [\w'-]+)?;?\s*$")
WORD = re.compile(r"[A-Za-z_][\w'?-]*$")
COMMENT = re.compile(r"(--|//).*$")

TURNED = ("component_bytes", "all_kinds", "not_opened", "in_order", "no_record")

# Lemmas that would have the name of a definition, and what they are called instead.
TOGETHER = {}


def snake(word):
    if "-" not in word and not word[0].islower():
        return word
    if not re.search(r"-[A-Za-z0-9]|[a-z0-9][A-Z]", word):
        return word
    parts = word.split("-")
    out = []
    for i, part in enumerate(parts):
        if part and (part[0].islower() or part[0].isdigit()):
            part = re.sub(r"(?<=[a-z0-9])([A-Z])", lambda m: "_" + m.group(1).lower(), part)
        out.append(part)
    return "_".join(out)


def files(root):
    for folder, dirs, names in os.walk(os.path.join(root, "crates")):
        dirs[:] = sorted(d for d in dirs if d not in ("out", "must-fail", "data"))
        for name in sorted(names):
            if name.endswith((".rt", ".antt")):
                yield os.path.join(folder, name)


def is_walk(path):
    """A proof of one function: its words are the generated ones, but for what it imports."""
    return re.search(r"/proofs/.+/(Proof|Answers|Invariants)\.antt$", path) is not None


def own(module):
    return module.startswith("Rattle.") and module.split(".")[1] not in LIBRARY


GENERATED = re.compile(r"^Rattle\.\w+\.(specs\.contracts|specs\.declared|proofs\.[a-z+])")
LIBRARY = {"std", "core", "std_alloc", "std_collections", "std_heap", "std_io", "io", "libc", "os"}


def uses(text):
    """The `use` lines: the module, the names, and the line."""
    for line in text.split("\n"):
        m = USE.match(line)
        if m:
            names = [n.strip() for n in (m.group(3) or "").split(",") if n.strip()]
            yield m.group(2), names, m.group(4)


def foreign(text):
    """Words that a file takes from a library or from what is generated."""
    out = set()
    for module, names, alias in uses(text):
        if not own(module) or GENERATED.match(module):
            for n in names:
                for w in n.split(" as "):
                    out.add(w.strip())
            if alias:
                out.add(alias.split()[-1])
    return out


def taken(text):
    """Words that a file takes from the repository's own specs and lemmas."""
    out = set()
    for module, names, _ in uses(text):
        if own(module) and not GENERATED.match(module):
            for n in names:
                for w in n.split(" as "):
                    out.add(w.strip())
    return out


def strip(text):
    return "\n".join(COMMENT.sub("", l) for l in text.split("\n"))


def words(path, text):
    """The words of a file that are the repository's to name."""
    not_ours = foreign(text)
    out = set()
    if is_walk(path):
        out = {t for t in taken(text) if WORD.match(t)}
    elif path.endswith(".rt"):
        ghost = set(taken(text))
        for t in TOKEN.findall(strip(text)):
            if re.match(r"[a-z]", t) and re.search(r"[a-z0-9][A-Z]", t) and WORD.match(t):
                ghost.add(t)
        out = ghost
    else:
        for t in TOKEN.findall(strip(text)):
            if WORD.match(t):
                out.add(t)
    return {t for t in out if t not in not_ours and not t.startswith("Need-")}


def every_word(path, text):
    return {t for t in TOKEN.findall(strip(text)) if WORD.match(t)}


def renamed(path, word):
    if word in TOGETHER:
        return TOGETHER[word]
    return snake(word)


def turn(path, text):
    """A file's text with its words renamed, comments' words in camel case included."""
    mine = {w: renamed(path, w) for w in words(path, text)}
    mine = {w: n for w, n in mine.items() if n != w}

    def line(l):
        m = USE.match(l)
        if m and m.group(3) is not None and (not own(m.group(2)) or GENERATED.match(m.group(2))):
            return l
        c = COMMENT.search(l)
        code, said = (l[: c.start()], l[c.start() :]) if c else (l, "")
        code = TOKEN.sub(lambda t: mine.get(t.group(0), t.group(0)), code)
        # what the prover generates is named behind an alias
        said = re.sub(r"`([^`]+)`", lambda t: "`" + TOKEN.sub(lambda u: mine.get(u.group(0), u.group(0)), t.group(1)) + "`", said)
        said = re.sub(r"\b[a-z][a-z0-9]*[A-Z]\w*", lambda t: mine.get(t.group(0), t.group(0)), said)
        return code + said

    return "\n".join(line(l) for l in text.split("\n"))


def tell_apart(every):
    """Fills TOGETHER: a word in camel case is a definition, one with dashes a lemma, a field or a variable."""
    camel, dashed, plain = set(), set(), set()
    for path, text in every.items():
        if path.endswith(".antt") and not is_walk(path):
            for w in words(path, text):
                if "-" in w:
                    dashed.add(w)
                elif snake(w) != w:
                    camel.add(snake(w))
                else:
                    plain.add(w)
    for w in dashed:
        if snake(w) in camel or snake(w) in plain:
            TOGETHER[w] = snake(w) + "_holds"
    for w in TURNED:
        TOGETHER[w] = w + "_holds"


def main(argv):
    root = os.getcwd()
    every = {}
    for path in files(root):
        with open(path, encoding="utf-8") as f:
            every[path] = f.read()
    tell_apart(every)
    if argv == ["--list"]:
        new = {}
        for path, text in every.items():
            image = collections.defaultdict(set)
            ours = words(path, text)
            for w in every_word(path, text):
                image[renamed(path, w) if w in ours else w].add(w)
                if w in ours and renamed(path, w) != w:
                    new[w] = renamed(path, w)
            for n, ws in sorted(image.items()):
                if len(ws) > 1:
                    print("together", os.path.relpath(path, root), n, *sorted(ws))
        for w in sorted(new):
            print(w, new[w])
        return 0
    for path, text in every.items():
        after = turn(path, text)
        if after != text:
            with open(path, "w", encoding="utf-8") as f:
                f.write(after)
    return 0


if __name__ == "__main__":
    raise SystemExit(main(sys.argv[1:]))
