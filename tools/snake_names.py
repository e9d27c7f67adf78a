#!/usr/bin/env python3
"""Brings the definitions and lemmas of specs/ and proofs/ to snake case: siteIn is site_in, and arc-head is arc_head.

usage: python3 tools/snake_names.py     at the top of the repository, once

Names of types, modules and Rust items keep their spelling, as do the names that a function's proof gives to its own goals.
A lemma whose new name a definition has already takes an ending of its own, below.
"""
import os
import re

# what would fall together
APART = {
    "arc-short": "arc_short_lem", "point-counts": "point_counts_lem", "at-node": "at_node_lem", "in_order": "in_order_lem",
    "data-fault": "data_fault_lem", "site-data": "site_data_lem", "graph-counts": "graph_counts_lem", "sites-of": "sites_of_lem",
    "arc-data": "arc_data_lem", "in-line": "in_line_lem", "point-data": "point_data_lem", "site-counts": "site_counts_lem",
    "way_back": "way_back_lem", "is-site": "names_site",
}
DECLARED = re.compile(r"^\s*(?:unfoldable |abbrev )*(?:pub )?(?:unfoldable |abbrev )*([^\s(){}.;,@]+) :(?: |$)")
WORD = re.compile(r"[^\s(){}\[\].;,:@\"`]+")


def files(ending):
    for folder, dirs, names in os.walk("crates"):
        dirs[:] = sorted(d for d in dirs if d != "out")
        for name in sorted(names):
            if name.endswith(ending):
                yield os.path.join(folder, name)


def snake(word):
    word = word.replace("-", "_").replace("\u2032", "'")
    return re.sub(r"(?<=[a-z0-9])([A-Z])", lambda m: "_" + m.group(1).lower(), word)


def turned():
    found = {}
    for path in files(".antt"):
        if path.endswith("Proof.antt"):
            continue
        for line in open(path, encoding="utf-8"):
            m = DECLARED.match(line)
            if not m:
                continue
            name = m.group(1)
            camel = name[0].islower() and re.search(r"[a-z0-9][A-Z]", name)
            if camel or "-" in name or "\u2032" in name:
                found[name] = snake(name)
    found.update(APART)
    return found


def put(text, names, camel_only):
    def one(m):
        if m.start() >= 4 and text[m.start() - 4:m.start()] == "tie.":
            return m.group(0)
        word = m.group(0)
        if camel_only and "-" in word:
            return word
        return names.get(word, word)
    return WORD.sub(one, text)


def main():
    names = turned()
    for path in files(".antt"):
        lines = []
        for line in open(path, encoding="utf-8").read().split("\n"):
            code, dash, said = line.partition("-- ")
            lines.append(put(code, names, False) + dash + put(said, names, True))
        open(path, "w", encoding="utf-8").write("\n".join(lines))
    for path in files(".rt"):
        lines = []
        for line in open(path, encoding="utf-8").read().split("\n"):
            code, slash, said = line.partition("//")
            parts = code.split('"')
            parts[0::2] = [put(p, names, False) for p in parts[0::2]]
            lines.append('"'.join(parts) + slash + put(said, names, True))
        open(path, "w", encoding="utf-8").write("\n".join(lines))


main()
