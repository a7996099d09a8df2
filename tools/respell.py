#!/usr/bin/env python3
"""Spells the repository's own definitions and lemmas as the kit's libraries do: words in snake case, a dash between two names.

usage: tools/respell.py            once, at the top, after the kit's port.py

checkNodes becomes check_nodes, now-is becomes now_is. In a lemma's name a dash stays where it joins two names (length-encodes: the
outer function first), and where another name is spelled so already; in a field of a record none stays. Files of proofs/, specs/, must-fail/ and the clauses of src/ are rewritten
in place, and names between backquotes in README.md and docs/.
"""
import collections
import os
import re
import subprocess
import sys

os.chdir(os.path.dirname(os.path.dirname(os.path.abspath(__file__))))
files = subprocess.check_output(["git", "ls-files"], text=True).split("\n")
antt = [f for f in files if f.startswith("crates/") and f.endswith(".antt")]
rt = [f for f in files if f.startswith("crates/") and f.endswith(".rt")]
edits = [f for f in files if f.startswith("crates/") and f.endswith(".edit")]
pages = [f for f in files if f == "README.md" or f.startswith("docs/") and f.endswith(".md")]
WORD = re.compile(r"[^\s(){}.;,@\"«»\[\]\\:`]+")
TOKEN = re.compile(r"\"(?:[^\"\\\n]|\\.)*\"|«[^»\n]*»|" + WORD.pattern)
HEAD = re.compile(r"\s*((?:abbrev |unfoldable |pub |data |record )*)([A-Za-z][^\s:(){}]*)(?: [^\n]*)? : ")


def read(path):
    with open(path, encoding="utf-8", newline="") as f:
        return f.read()


RECORD = re.compile(r"(?m)^( *)(?:pub )?record [^\n]*where\n((?:\1  +[^\n]*\n|\n)+)")
# fields whose name in snake case is a definition that the same file cites, or whose name is one of the library's lemmas
FIELDS = {"run-outputs": "outputs_of_run", "is-cell": "is_a_cell", "node-words": "words_of_nodes", "output-words": "words_of_outputs"}
IN_ONE_FILE = {"crates/bench_meaning/proofs/Naming.antt": {"not-false": "not_false", "not-true": "not_true"}}

defined, functions, theirs, used, fields = set(), set(), set(), set(), set()
for path in antt:
    text = read(path)
    used.update(WORD.findall(re.sub(r"--[^\n]*", "", text)))
    for line in re.findall(r"(?m)^(?:pub )?use [^\n]*", text):
        if not re.match(r"(?:pub )?use Rattle\.(?!std\.)", line):
            theirs.update(WORD.findall(line))
    if path.endswith("/Proof.antt"):
        continue
    for m in RECORD.finditer(text):
        fields.update(re.findall(r"(?m)^ +(?:pub )?([a-z][\w'-]*) : ", m[2]))
    for line in text.split("\n"):
        m = HEAD.match(line)
        if m and m[2] not in ("let", "use", "module"):
            defined.add(m[2])
            if "/specs/" in path and re.search("abbrev|unfoldable", m[1]):
                functions.add(m[2])
for path in rt:
    used.update(WORD.findall(re.sub(r"//[^\n]*", "", read(path))))


def snake(name):
    name = re.sub(r"(?<![A-Za-z])getD(?![A-Za-z])", "get_or", name)
    if name[:1].islower():
        name = re.sub(r"(?<=[a-z0-9])([A-Z])", lambda m: "_" + m[1].lower(), name)
    return name


NAMES = functions | {snake(it) for it in functions} | {it for it in theirs if "-" not in it} | {"append", "cons", "nil", "zero", "suc", "get_or"}


def dashes(name):
    """Keeps a dash whose sides are both names."""
    parts = name.split("-")
    out = parts[0]
    for i in range(1, len(parts)):
        before, after = parts[i - 1], parts[i]
        out += ("-" if before in NAMES and after in NAMES else "_") + after
    return out


table = {}
for name in sorted(defined - theirs, key=lambda it: (snake(it) == it, it)):
    if not name[:1].islower():
        continue
    new = snake(name)
    if name in fields:
        table[name] = FIELDS.get(name, new.replace("-", "_"))
        continue
    with_words = dashes(new)
    if with_words != new and with_words not in used and with_words not in table.values():
        new = with_words
    if new != name:
        table[name] = new
# a lemma that would have its function's name
if "free_in" in defined and "freeIn" in defined:
    table["free_in"] = "free_in_lem"
table = {name: new for name, new in table.items() if name != new}
clash = collections.Counter(table.values())
for name, new in table.items():
    if clash[new] > 1:
        sys.exit(f"two names fall together at {new}")

# what port.py has respelled already, but not in edits and pages
done = {table.get(name, name) for name in defined}


def turned(word, everywhere):
    if word in table or everywhere or word in defined or not re.search("[a-z][A-Z]", word):
        return table.get(word, word)
    return snake(word) if snake(word) in done else word


turn = lambda text, everywhere=True: TOKEN.sub(lambda m: turned(m[0], everywhere), text)
changed = 0
for path in antt + rt + edits + pages:
    old = read(path)
    if path in pages:
        new = re.sub(r"`[^`\n]+`", lambda m: turn(m[0], False), old)
    elif path.endswith(".rt"):
        new = re.sub(r"(?m)^\s*(?:ghost use|requires|ensures)[^\n]*|//[^\n]*", lambda m: turn(m[0]), old)
    else:
        new = turn(old, not path.endswith(".edit"))
        for name, word in IN_ONE_FILE.get(path, {}).items():
            new = re.sub(r"(?<![\w-])" + name + r"(?![\w-])", word, new)
    if new != old:
        with open(path, "w", encoding="utf-8", newline="") as f:
            f.write(new)
        changed += 1
print(f"{len(table)} names, {changed} files")
if "--table" in sys.argv:
    for name, new in sorted(table.items()):
        print(name, new)
