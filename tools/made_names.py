#!/usr/bin/env python3
"""Brings the names that the toolchain makes, where proofs/ of a function cite them, to today's spelling: a dash joins parts, and a part keeps its underscores.

usage: python3 tools/made_names.py     at the top of the repository, once
"""
import glob
import re

WORD = re.compile(r"[A-Za-zα-ωμ][A-Za-z0-9_'+]*(?:-[A-Za-z0-9_'+]+)+")
STD = """as_slice as_mut_slice as_bytes as_str copy_from_slice saturating_sub saturating_add is_some is_none is_ok is_err is_empty
into_iter count_ones trailing_zeros leading_zeros with_capacity push_str unwrap_or unwrap_or_else from_residual to_string
split_at split_at_mut starts_with strip_suffix get_mut swap_remove checked_add checked_sub wrapping_add wrapping_mul rotate_left
map_err ok_or ok_or_else and_then is_some_and iter_mut length_of push_reserved push_within try_reserve write_fmt from_fn""".split()
FIXED = "overflow_add overflow_sub overflow_mul overflow_cast overflow_neg overflow_shl overflow_shr invariant_of in_default in_ok in_err".split()


def names():
    found = set(STD + FIXED)
    for path in glob.glob("crates/*/src/**/*.rt", recursive=True):
        text = re.sub(r"//[^\n]*", "", open(path, encoding="utf-8").read())
        found |= {w for w in re.findall(r"\b[A-Za-z][A-Za-z0-9]*(?:_[A-Za-z0-9]+)+\b", text)}
    return sorted(found, key=lambda w: (-w.count("_"), w))


def main():
    known = [(w.replace("_", "-"), w) for w in names()]

    def turn(match):
        word = "-" + match.group().replace("+", "-+-") + "-"
        for dashed, spelled in known:
            word = word.replace("-" + dashed + "-", "-" + spelled + "-")
            word = word.replace("-" + dashed + "-", "-" + spelled + "-")
        return word[1:-1].replace("-+-", "+")

    for path in sorted(glob.glob("crates/*/proofs/*/**/*.antt", recursive=True)):
        if "/out/" in path:
            continue
        lines = []
        for line in open(path, encoding="utf-8").read().split("\n"):
            code, mark, comment = line.partition("--")
            # A name that another file gives by a use line keeps its spelling, but for those of Goals and Given.
            if not re.match(r"use (?!.*\.(Goals|Given)\b)", code):
                code = WORD.sub(turn, code)
            lines.append(code + mark + comment)
        text = "\n".join(lines)
        if text != open(path, encoding="utf-8").read():
            open(path, "w", encoding="utf-8").write(text)


main()
