#!/usr/bin/env python3
"""Brings the definitions and lemmas of this repository to snake case: camel and dashed names that specs/ and proofs/ define.

usage: python3 tools/snake_names.py [--list]     at the top of the repository, once, after the toolchain's own script

Statements (dashed names with a capital) become camel case. Types, modules and constructors keep their spelling, and so do
the names that the toolchain makes (goals and the steps of a function's proof) and those that its library defines.
"""
import collections
import glob
import re
import sys

WORD = re.compile(r"[A-Za-zα-ωΑ-Ωℓμ][A-Za-z0-9_'₀-₉α-ωμ]*(?:-[A-Za-z0-9_'₀-₉α-ωμ]+)*")
ODD = re.compile(r"[A-Za-zμ][A-Za-z0-9_'₀-₉]*-|[a-zμ][a-z0-9_']*[A-Z]")
# Where the plain form would fall together with a function of src/ or with another name in reach.
OTHER = {
    "assignGround": "ground_of_assign",
    "blockGround": "ground_of_block",
    "consoleGround": "ground_of_console",
    "extentGround": "ground_of_extent",
    "fileGround": "ground_of_file",
    "keyGround": "ground_of_key",
    "putGround": "ground_of_put",
    "runGround": "ground_of_run",
    "writeGround": "ground_of_write",
    "assignIn": "assign_command",
    "clearIn": "clear_command",
    "findIn": "find_command",
    "nextIn": "next_command",
    "keysIn": "keys_command",
    "byLetter": "command_by_letter",
    "commandOf": "command_in",
    "enterTwo": "two_entered",
    "firstHeld": "first_held_key",
    "keyRule": "rule_of_keys",
    "lowestMapped": "lowest_mapped_block",
    "nextReply": "reply_to_next",
    "pathKey": "key_on_path",
    "pathLength": "length_of_path",
    "runIn": "run_in_line",
    "fromBoard": "is_from_board",
    "clearOne": "clear_one_block",
    "home-in": "in_home",
    "new-book": "new_book_is",
    "size-by-zeros": "size_by_zeros_greedy",
    "bit-and": "bit_of_and",
    "bit-or": "bit_of_or",
    "held-at": "held_is_key",
    "first-zero": "at_first_zero",
    "left-size": "same_left_size",
    "right-size": "same_right_size",
}
# The library's, under a name that a helper here shares.
KEPT = {"append-nil"}


def files(pattern):
    return sorted(p for p in glob.glob("crates/*/" + pattern, recursive=True) if "/out/" not in p)


def spec_files():
    return files("specs/**/*.antt") + files("proofs/**/*.antt")


def code_files():
    return files("src/**/*.rt") + files("must-fail/*.edit") + files("refused/*.edit")


def bare(text):
    return re.sub(r"--[^\n]*", "", text)


def snake(name):
    if "-" in name and name[0].isupper():
        return "".join(part[0].upper() + part[1:] for part in name.split("-"))
    return re.sub(r"(?<=[a-z0-9'])([A-Z])", lambda m: "_" + m.group(1).lower(), name.replace("-", "_"))


# A definition: `name : ..` at any depth of a block (a field, a helper, a case), `name (x : ..) : ..`, or a local `let name = ..`.
NAMES = r"(?P<names>" + WORD.pattern + r"(?:\s+" + WORD.pattern + r")*)"
HEADS = [
    re.compile(r"^[ \t]*(?:abbrev |unfoldable |pub |\| )*" + NAMES + r"\s+:(?!=)\s", re.M),
    re.compile(r"^(?:pub )?(?:record|data) (?P<names>" + WORD.pattern + r")\b", re.M),
    re.compile(r"\blet (?P<names>" + WORD.pattern + r")\b"),
    re.compile(r"[({]" + NAMES + r"\s+:\s"),
]


def defined():
    names, made = set(), set()
    for path in spec_files():
        text = bare(open(path, encoding="utf-8").read())
        made |= set(re.findall(r"\b(?:goal|given|Goals|Given)\.(" + WORD.pattern + ")", text))
        for block in re.findall(r"(?:Goals|Given)\.\{([^}]*)\}", text):
            made |= set(w.strip() for w in block.split(","))
        for head in HEADS:
            for m in head.finditer(text):
                names |= set(w for w in m.group("names").split() if ODD.match(w))
    return names - made - KEPT


def main():
    names = defined()
    to = {n: OTHER.get(n, snake(n)) for n in names}
    if "--list" in sys.argv:
        inside, back = collections.defaultdict(set), collections.defaultdict(list)
        for path in spec_files() + code_files():
            for w in set(WORD.findall(bare(open(path, encoding="utf-8").read()))):
                inside[w].add(path)
        for old, new in to.items():
            back[new].append(old)
        for new, olds in sorted(back.items()):
            if len(olds) > 1:
                print("two:", new, olds)
            for old in olds:
                both = inside[old] & inside[new]
                if both:
                    print("meets:", old, new, sorted(both)[:4])
        for old in sorted(to):
            print(old, to[old])
        return
    for path in spec_files() + code_files():
        dashed = path.endswith(".antt")

        def turn(line):
            code, mark, comment = line.partition("--") if dashed else (line, "", "")
            code = WORD.sub(lambda m: to.get(m.group(), m.group()), code)
            comment = WORD.sub(lambda m: to.get(m.group(), m.group()) if "-" not in m.group() else m.group(), comment)
            return code + mark + comment

        text = open(path, encoding="utf-8").read()
        new = "\n".join(map(turn, text.split("\n")))
        if new != text:
            open(path, "w", encoding="utf-8").write(new)


main()
