#!/usr/bin/env python3
"""Spells the repository's own words of antt in snake case, in crates/, README.md, docs/ and .ci/.

usage: tools/respell.py        at the top of the repository, once, after the kit's port.py

A word is respelled where a file of specs/ or proofs/ declares it: a definition, a lemma, a field, a constructor, a ghost item's name.
Types and modules begin with a capital and stay. A name that a file takes from a library keeps its spelling in that file, and so do Rust's
names, which have none of the spellings that are turned. Two words that would fall together are printed, and nothing is written.
"""

import os
import re
import sys

TOP = os.getcwd()
# what a name of antt may hold
NAME = r"[A-Za-zμ+][A-Za-z0-9_'\-₀₁₂₃₄₅₆₇₈₉+]*"
TOKEN = re.compile(r"(?<![A-Za-z0-9_'\-₀₁₂₃₄₅₆₇₈₉+μ])" + NAME)
HEAD = re.compile(r"^\s*((?:pub |abbrev |unfoldable )*)(data |record )?(" + NAME + r")((?:\s*\{[^{}]*\})*\s*:(?!:)|\s|$)")
MEMBER = re.compile(r"^\s+((?:" + NAME + r")(?: " + NAME + r")*)\s*:")
# words that would fall together with another: a lemma that would have its function's name gets `_lem`, and three more say whose they are
APART = {
    "to-array": "array_known",
    "to-struct": "struct_known",
    "to_word": "word_known",
    "noRule": "no_rule_told",
    **{n: n.replace("-", "_") + "_lem" for n in (
        "cell_row code-into fallen-code first-after first-later first-now fresh-word holds-well in_scope line-into mode-number"
        " not-one-part one_more one-role parts-of row-stored same-cell same_kind same-mode struct-gives two-role word-code has-key first_part first-bad head-into is-literal is-refusal kind-word lowest-from node_in one-into parts-into refused-at"
        " row_put size-of too-deep type-kind word-kind").split()},
}
# the same of two crates: the kit's script brought a lemma of the one and a definition of the other to one spelling
APART_IN = {"judge": {"in_row": "in_row_lem"}, "image": {"value_of": "value_of_lem"}}
WORDS = {"use", "mod", "where", "unfolding", "open", "elim", "let", "in", "record", "data", "λ", "cycle", "mutual"}


def files(ending):
    for folder, dirs, names in os.walk(os.path.join(TOP, "crates")):
        dirs[:] = sorted(d for d in dirs if d != "out")
        for name in sorted(names):
            if name.endswith(ending):
                yield os.path.join(folder, name)


def text_of(path):
    with open(path, encoding="utf-8") as f:
        return f.read()


def declared(text):
    """The names that a file declares, with those of fields and constructors; a goal's name belongs to its function and is not one."""
    block = False
    for line in text.split("\n"):
        if line.startswith(("--", "use ")):
            continue
        m = HEAD.match(line)
        if m and m.group(3) not in WORDS and (m.group(2) or ":" in m.group(4)):
            block = block and line.startswith(" ") or bool(m.group(2))
            if " tie." not in line and "-lts." not in line:
                yield m.group(3)
            continue
        if line and not line.startswith(" "):
            block = False
        m = MEMBER.match(line) if block else None
        if m:
            yield from m.group(1).split(" ")


def snake(name):
    if name in APART:
        return APART[name]
    if name[0].isupper():
        return name
    name = re.sub(r"(?<=[a-z0-9])([A-Z])", lambda m: "_" + m.group(1).lower(), name)
    return name.replace("-", "_")


def taken(text):
    """The names that a file takes from a library."""
    found = set()
    for m in re.finditer(r"^(?:ghost )?use ([^\s;{]+?)\.\{([^}]*)\}", text, re.M):
        if m.group(1).split(".")[0] == "Rattle" and m.group(1).split(".")[1] in CRATES:
            continue
        found.update(n.split(" as ")[-1].strip() for n in m.group(2).split(","))
    return found


def cited(word, turns, own):
    """A word as a page cites it: one that the kit's script turned already is turned here too."""
    if word in turns:
        return turns[word]
    return snake(word) if snake(word) in own else word


def turned_word(m, kept, turns, steps):
    """What a word becomes; behind a dot in a function's proof it is a step of that function, which is called as the function it calls."""
    word = m.group(0)
    if word in kept:
        return word
    if steps and word in APART and m.string[m.start() - 1 : m.start()] == ".":
        return word.replace("-", "_")
    return turns.get(word, word)


CRATES = set(os.listdir(os.path.join(TOP, "crates")))


def main():
    own = set()
    for path in files(".antt"):
        own.update(declared(text_of(path)))
    turns = {n: snake(n) for n in own if snake(n) != n}
    clash = False
    back = {}
    for n in sorted(own):
        back.setdefault(snake(n), set()).add(n)
    for n, olds in sorted(back.items()):
        if len(olds) > 1 and n != "node_at":  # a local word of two proofs of cycles
            print("falls together:", n, sorted(olds))
            clash = True
    if clash:
        return 1
    camel = {n for n in turns if re.search("[a-z0-9][A-Z]", n)}
    for path in [*files(".antt"), *files(".rt"), *files(".edit")]:
        text = text_of(path)
        kept = taken(text)
        # Rust's own names are in snake case already: in its files only words of antt's spelling are turned
        mine = turns if path.endswith(".antt") else {n: t for n, t in turns.items() if n in camel or "-" in n}
        if path.endswith(".antt"):
            mine = {**mine, **APART_IN.get(os.path.relpath(path, TOP).split(os.sep)[1], {})}
        words = set(TOKEN.findall(text))
        for n in sorted(words & set(mine) - kept):
            if mine[n] in kept or (mine[n] in words and n not in APART and path.endswith(".antt")):
                print("look:", os.path.relpath(path, TOP), n, "->", mine[n])
        turned = TOKEN.sub(lambda m: turned_word(m, kept, mine, steps=path.endswith("Proof.antt")), text)
        if turned != text:
            with open(path, "w", encoding="utf-8") as f:
                f.write(turned)
    pages = [os.path.join(TOP, "README.md"), *(os.path.join(TOP, d, n) for d in ("docs", ".ci") for n in os.listdir(os.path.join(TOP, d)))]
    for path in pages:
        if path.endswith(".svg"):
            continue
        text = text_of(path)
        turned = TOKEN.sub(lambda m: turns.get(m.group(0), m.group(0)) if m.group(0) in camel else m.group(0), text)
        turned = re.sub(r"`([^`\n]*)`", lambda m: "`" + TOKEN.sub(lambda t: cited(t.group(0), turns, own), m.group(1)) + "`", turned)
        if turned != text:
            with open(path, "w", encoding="utf-8") as f:
                f.write(turned)
    print(len(turns), "words respelled")
    return 0


if __name__ == "__main__":
    sys.exit(main())
