#!/usr/bin/env python3
"""Brings the repository's own names in specs/ and proofs/ to today's spelling.

usage: python3 tools/respell.py      once, at the top of a checkout that port.py has just turned; after changes again

It reads which names the .antt files declare, and renames them wherever they stand: in .antt files, in the clauses and comments of .rt files, in
edits and documents.

1. Words: a name with a capital inside (bankCount) becomes snake case (bank_count), as a word or as a part between dashes; fields of records too.
2. Laws: a dash joins two names, as in length-drop; a plain word is added with `_`. A part of a law's name counts as a name if a definition, a
   constructor, a function of src/ or one of the library's words of LIBRARY has it. A law that would have the name of something else ends in _lem.

Functions of src/, types, modules, strings and file names stay as they are. A second run changes nothing.
"""
import os
import re
import sys

WORD = re.compile(r"[^\s(){}.;,@\"«»\[\]\\:`|]+")
SIGNATURE = re.compile(r"^\s*((?:abbrev |unfoldable |pub )*)((?:[^\s(){},;:.]+\s+)+):\s(.*)")
RECORD = re.compile(r"(?ms)^ *(?:pub )?record (?!\{).*?(?=\n\n|\Z)")
DATA = re.compile(r"(?ms)^(?:pub )?data .*?(?=\n\n|\Z)")
FIELD = re.compile(r"(?m)^ +(?:pub )?(\S*-\S*) : ")
# A law that has, once both are in snake case, the name of the definition that it is about.
LAWS = {
    "at_front": ["delivery/proofs/Laws", "protocol/proofs/Laws"],
    "goes_on": ["bounds/specs/LongerLaws", "run/proofs/Laws"],
    "has_room": ["base/specs/Pigeon"],
    "is_open": ["drivers/proofs/Laws"],
    "ordered_at": ["profile/specs/Accepted"],
    "to_read": ["drivers/specs/AnswersLaws"],
    "turn_at": ["bridge/proofs/TalkLaws"],
}
# What a lemma was called after has another name in the library now.
PARTS = {"getD": "get_or"}
LIBRARY = set(
    "length take drop set map append replicate reverse get_or zero suc none some true false leb ltb eqb pick cond any all count sym ap refl nil cons "
    "min max mod div add sub mul le lt eq ne not or and of_bits to_bits pos neg".split()
)


def files(ends):
    for top in ("crates", "docs", "bench", "README.md"):
        if os.path.isfile(top):
            yield top
        for folder, below, names in os.walk(top):
            below[:] = sorted(d for d in below if d not in ("out", "target"))
            for name in sorted(names):
                # The page of the port has the old names beside the new.
                if name.endswith(ends) and name != "PORT.md":
                    yield os.path.join(folder, name)


def read(path):
    with open(path, encoding="utf-8") as f:
        return f.read()


def write(path, text):
    with open(path, "w", encoding="utf-8") as f:
        f.write(text)


def snake(word):
    word = PARTS.get(word, word)
    return re.sub(r"([a-z0-9])([A-Z])", lambda m: m[1] + "_" + m[2].lower(), word)


def is_camel(word):
    return word[0].islower() and re.search(r"[a-z0-9][A-Z]", word)


def signatures(text):
    """Returns what a text declares, with how, but for the goals of a proof file."""
    for line in text.splitlines():
        m = SIGNATURE.match(line)
        if m and not re.match(r"(goal|tie)\.", m[3]):
            for word in m[2].split():
                yield word, m[1]


def words():
    declared, fields = set(), set()
    for path in files((".antt",)):
        text = read(path)
        for line in text.splitlines():
            m = SIGNATURE.match(line)
            declared |= set(m[2].split()) if m else set()
        for record in RECORD.findall(text):
            fields |= set(FIELD.findall(record))
    declared = {w for w in declared if any(p and is_camel(p) for p in w.split("-"))}
    new = {w: "-".join(snake(p) if p and is_camel(p) else p for p in w.split("-")) for w in declared}
    new.update({w: w.replace("-", "_") for w in fields | {"room-rules"}})

    def laws_of(path, text):
        """The laws of LAWS that this file declares or takes by a use line."""
        found = set()
        for law, homes in LAWS.items():
            named = re.sub(r"_([a-z])", lambda m: m[1].upper(), law)
            for home in homes if named in new else []:
                crate, part, module = home.split("/")
                taken = re.search(r"(?m)^use Rattle\.%s\.%s\.%s\.\{[^}]*\b%s\b[^}]*\}" % (crate, part, module, law), text)
                if path == f"crates/{home}.antt" or taken:
                    found.add(law)
        return found

    for path in files((".antt", ".rt", ".edit", ".md")):
        text = read(path)
        laws = laws_of(path, text) if path.endswith(".antt") else set()
        # What a file calls a name that it takes.
        aliases = {w: snake(w) for w in re.findall(r" as ([a-z][^\s,};]*)", text) if is_camel(w)} if path.endswith((".rt", ".antt")) else {}

        def one(m):
            word = m[0]
            before = text[m.start() - 1 : m.start()]
            if word in laws and before != ".":
                return word + "_lem"
            return new.get(word) or aliases.get(word, word)

        now = WORD.sub(one, text)
        if now != text:
            write(path, now)
    return len(new)


def law_names():
    """Returns the new name of each law whose name has a dash before or behind a plain word."""
    names, laws = set(LIBRARY), set()
    for path in files((".antt", ".rt")):
        text = read(path)
        if path.endswith(".rt"):
            names |= set(re.findall(r"\bfn (\w+)", text))
            continue
        # What one proof has for itself names nothing elsewhere.
        is_shared = path.count("/") == 3
        for word, how in signatures(text):
            (names if is_shared and ("abbrev" in how or "unfoldable" in how) else laws).add(word)
        for data in DATA.findall(text):
            names |= set(re.findall(r"(?m)^  (\S+) :", data))
    taken = names | laws
    plain = {w for w in names if "-" not in w}

    def joined(word):
        parts = word.split("-")
        out = parts[0]
        for a, b in zip(parts, parts[1:]):
            out += ("-" if a in plain and b in plain else "_") + b
        return out if out == word else joined(out)

    dashed = [w for w in sorted(names | laws) if "-" in w[1:-1]]
    new = {w: joined(w) for w in dashed if joined(w) != w}
    # The library's names, where a file has both.
    for path in files((".antt",)):
        text = read(path)
        theirs = library_names(text)
        taken |= {new[w] for w in set(WORD.findall(text)) & set(new) if new[w] in theirs}
    return {w: (n + "_lem" if n in taken else n) for w, n in new.items()}


def library_names(text):
    """Returns the names that a file takes from the library."""
    ours, theirs = set(os.listdir("crates")), set()
    for module, names in re.findall(r"(?m)^(?:pub )?(?:ghost )?use ([\w.◌-]+)\.\{([^}]*)\}", text):
        parts = module.split(".")
        if parts[0] != "Rattle" or parts[1] not in ours:
            theirs |= {n.strip().split(" as ")[0] for n in names.split(",")}
    return theirs


def laws():
    new = law_names()
    for path in files((".antt", ".rt", ".edit", ".md")):
        text = read(path)
        # Names that a file takes from the library are not ours, nor are the names of goals.
        theirs = library_names(text) | set(re.findall(r"(?m)^(?:pub )?(\S+) : (?:goal|tie)\.", text))
        modules = set(re.findall(r"(?m)^(?:pub )?use \S+ as (\w+)$", text)) | set(re.findall(r"(?m)^(?:pub )?use [\w.]+\.(\w+)$", text))
        modules -= {"goal", "tie"}

        def one(m):
            word = m[0]
            if word not in new or word in theirs:
                return word
            line = text[text.rfind("\n", 0, m.start()) + 1 : m.start()]
            is_said = path.endswith(".md") or "--" in line or "//" in line or line.startswith("#")
            if is_said and line.count("`") % 2 == 0:
                return word
            above = re.search(r"([^\s(){};,]+)\.\Z", line)
            if above and above[1] not in modules:
                return word
            return new[word]

        now = WORD.sub(one, text)
        if now != text:
            write(path, now)
    return len(new)


if __name__ == "__main__":
    if not os.path.isdir("crates"):
        sys.exit(__doc__)
    print(f"{words()} words, {laws()} laws")
