#!/usr/bin/env python3
"""Spells the repository's own definitions and lemmas in snake case, as 'size-high' to 'size_high' and 'toCommitOf' to 'to_commit_of'.

usage: respell.py [FOLDER]    run once at the top of the repository, right behind the kit's port.py

It turns each name that a file of crates/*/specs or a lemma file right in crates/*/proofs declares, wherever antt or a
clause cites it. Names of src/, exported names, strings, inputs and outputs stay, and so do the names that Rattle makes of
the source (in proofs/FUNCTION/, behind a dot). A lemma keeps its dash where its new spelling is a definition's, and a line
'left:' says so.
Of a comment's words only camel humps and code spans turn, since 'not-ready' may be plain English.
"""

import os
import re
import sys

WORD = re.compile(r'[^\s(){}.;,@"«»`]+')
DECLARED = re.compile(
    r"(?m)^ *(?:\w+ )*?([^\s(){}.;,@\"«»`]+(?: [^\s(){}.;,@\"«»`]+)*)(?: \{[^{}\n]*\}| \([^()\n]*\))* :(?= |$)"
)
HUMP = re.compile(r"(?<=[a-z0-9])[A-Z]")
# A fact takes a capital; and a view of the ring right behind a swap met a lemma of that name.
OTHERWISE = {"isIdle": "IsIdle", "swapView": "swapped_view"}


def files(top):
    for root, folders, names in os.walk(os.path.join(top, "crates")):
        folders[:] = sorted(it for it in folders if it != "out")
        for name in sorted(names):
            if name.endswith((".antt", ".rt", ".edit")):
                yield os.path.join(root, name)


def is_lemma_file(path):
    return re.search(r"crates/\w+/(specs|proofs)/\w+\.antt$", path) is not None


def without_comments(text):
    return re.sub(r"(?m)--.*$", "", text)


def spelled(name):
    if name in OTHERWISE:
        return OTHERWISE[name]
    humps = HUMP.sub(lambda m: "_" + m[0].lower(), name)
    return re.sub(r"-(?=\w)", "_", humps)


def table(texts):
    declared = set()
    for path, text in texts.items():
        if is_lemma_file(path):
            for names in DECLARED.findall(without_comments(text)):
                declared.update(names.split())
    rows = {}
    for name in sorted(declared):
        if re.match("[a-z]", name) and spelled(name) != name:
            rows[name] = spelled(name)
    return rows, declared


def taken(rows, declared, texts):
    """The lemmas that keep their dash, since a definition or another name has the new spelling."""
    words = {path: set(WORD.findall(text)) for path, text in texts.items()}
    humps = {new for old, new in rows.items() if HUMP.search(old)}
    for old, new in rows.items():
        if HUMP.search(old):
            continue
        if new in humps or new in declared or any(old in its and new in its for its in words.values()):
            yield old


def turn_code(code, rows, of_function):
    def one(match):
        if of_function and match.start() and code[match.start() - 1] == ".":
            return match[0]
        return rows.get(match[0], match[0])

    return WORD.sub(one, code)


def turn_comment(comment, rows):
    def word(match):
        hump = HUMP.search(match[0])
        return rows.get(match[0], match[0]) if hump else match[0]

    def span(match):
        return WORD.sub(lambda m: rows.get(m[0], m[0]), match[0])

    return WORD.sub(word, re.sub(r"`[^`]*`", span, comment))


def turn(path, text, rows):
    of_function = "/proofs/" in path and not is_lemma_file(path)
    mark = "--" if path.endswith(".antt") else "//"
    lines = []
    for line in text.split("\n"):
        at = line.find(mark)
        if at < 0 or path.endswith(".edit"):
            at = len(line)
        lines.append(turn_code(line[:at], rows, of_function) + turn_comment(line[at:], rows))
    return "\n".join(lines)


def main():
    top = sys.argv[1] if len(sys.argv) > 1 else "."
    texts = {path: open(path, encoding="utf-8").read() for path in files(top)}
    rows, declared = table(texts)
    for old in sorted(set(taken(rows, declared, texts))):
        print(f"left: {old}, since {rows.pop(old)} is taken")
    changed = 0
    for path, text in texts.items():
        new = turn(path, text, rows)
        if new != text:
            changed += 1
            open(path, "w", encoding="utf-8").write(new)
    print(f"respell: {len(rows)} names, {changed} files")


if __name__ == "__main__":
    main()
