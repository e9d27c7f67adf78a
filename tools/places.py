#!/usr/bin/env python3
"""places.py [COMMIT] [POINT..]: the places of the points of docs/DESIGN-PASS.md in crates/*/src, of a commit, or of the
working tree where none is named. Prints for each point how many there are, and with a point's number its places; then some
of them counted another way."""
import difflib
import re
import subprocess
import sys


def git(*words):
    return subprocess.run(["git", *words], check=True, capture_output=True, text=True).stdout


def sources(commit):
    """(path, text) of each source file"""
    listed = git("ls-tree", "-r", "--name-only", commit, "crates") if commit else git("ls-files", "crates")
    for path in listed.splitlines():
        if re.match(r"crates/\w+/src/.*\.rt$", path):
            yield path, git("show", f"{commit}:{path}") if commit else open(path).read()


def bare(text):
    """without comments"""
    return re.sub(r"//[^\n]*", "", text)


def line_of(text, at):
    return text.count("\n", 0, at) + 1


class Function:
    def __init__(self, path, text, found):
        self.path, self.line, self.name = path, line_of(text, found.start()), found.group(1)
        at = text.index("(", found.start())
        self.parameters, at = inside(text, at, "()")
        self.head = text[at:text.index("{\n", at)] if "{\n" in text[at:] else text[at:]
        self.clauses, self.lines = [], 0
        # the body's brace stands alone on its line where there are clauses, else at the end of the head
        start = re.compile(r"\n(\s*)\{\n|\)[^\n]*\{\n").search(text, at - 1)
        self.body = ""
        if start:
            brace = text.rindex("{", start.start(), start.end())
            self.head = text[at:brace]
            self.body, end = inside(text, brace, "{}")
            self.lines = text.count("\n", found.start(), end) + 1
        for kind, fact in re.findall(r"\b(requires|ensures)\s*\w*\s*\{(.*?)\}\s*(?=\n|$)", self.head, re.S):
            self.clauses += [" ".join(part.split()) for part in conjuncts(fact)]

    def count(self):
        depth, commas = 0, 0
        for c in self.parameters:
            depth += (c in "([{<") - (c in ")]}>")
            commas += c == "," and depth == 0
        return commas + bool(self.parameters.strip().rstrip(",")) - self.parameters.strip().endswith(",")

    def place(self):
        return f"{self.path}:{self.line} {self.name}"


def inside(text, at, pair):
    """what stands in the brackets that open at `at`, and where they end"""
    depth = 0
    for i in range(at, len(text)):
        depth += (text[i] == pair[0]) - (text[i] == pair[1])
        if depth == 0:
            return text[at + 1:i], i + 1
    return text[at + 1:], len(text)


def conjuncts(fact):
    """the parts of a × b × c, without the brackets round them"""
    fact = fact.strip()
    while fact.startswith("(") and inside(fact, 0, "()")[1] == len(fact):
        fact = fact[1:-1].strip()
    depth = 0
    for i, c in enumerate(fact):
        depth += (c in "([{") - (c in ")]}")
        if c == "×" and depth == 0:
            return conjuncts(fact[:i]) + conjuncts(fact[i + 1:])
    return [fact]


def shape(function):
    """the tokens of a function, with each name and number by where it first stands"""
    words = {"let", "mut", "if", "else", "while", "for", "in", "loop", "match", "return", "break", "as", "fn", "true", "false"}
    text = re.sub(r"\b(requires|ensures)\b.*", "", function.head, flags=re.S)
    tokens = re.findall(r"\w+|[^\w\s]", function.parameters + text + function.body)
    seen, out = {}, []
    for token in tokens:
        if re.match(r"\w", token) and token not in words:
            token = f"#{seen.setdefault(token, len(seen))}"
        out.append(token)
    return tuple(out)


def functions(files):
    for path, text in files:
        text = bare(text)
        for found in re.finditer(r"\bfn\s+(\w+)", text):
            if "(" in text[found.end():found.end() + 120]:
                yield Function(path, text, found)


def grep(files, pattern):
    for path, text in files:
        for found in re.finditer(pattern, bare(text), re.M):
            yield f"{path}:{line_of(bare(text), found.start())} {' '.join(found.group(0).split())}"


def points(files):
    all_functions = list(functions(files))
    enums = []
    for path, text in files:
        text = bare(text)
        for found in re.finditer(r"\benum\s+(\w+)[^{]*\{", text):
            body, _ = inside(text, found.end() - 1, "{}")
            while re.search(r"[({][^(){}]*[)}]", body):
                body = re.sub(r"[({][^(){}]*[)}]", "", body)
            if len([v for v in body.split(",") if v.strip()]) == 2:
                enums.append(f"{path}:{line_of(text, found.start())} {found.group(1)}")
    codes = list(grep(files, r"^pub const (?!\w*(?:MOST|PANEL_K|TEXT\b))[A-Z_]+: usize = \d+;"))
    flags = list(grep(files, r"\b(?:number|next|nodes|fault)(?:\.next)? ?(?:==|!=) 0\b|\.next == 0|\.nodes (?:==|!=) 0"))
    tested = [f.place() for f in all_functions if re.search(r"-> usize", f.head) and re.search(r"fault|too_many|or_else", f.name)]
    kinds = list(grep(files, r"\b(?:kind|c\[0\]) == \d+"))
    yield 1, "own enums of two variants; codes; tests of a 0 that says none", enums + codes + tested + flags + kinds

    shapes = {}
    for f in all_functions:
        if f.body.count("\n") >= 2 and "extern" not in f.head:
            shapes.setdefault(shape(f), []).append(f.place())
    yield 2, "functions that are like another but for names, types and numbers", [p for group in shapes.values() if len(group) > 1 for p in group]

    yield 3, "loops by while or loop", list(grep(files, r"^\s*(?:'\w+: )?(?:while\b.*|loop) \{"))

    casts = [f.place() for f in all_functions if re.fullmatch(r"\s*(?:\w+|\(\w+\)) as \w+\s*", f.body)]
    choices = [f.place() for f in all_functions if re.fullmatch(r"\s*if (\w+) <=? (\w+) \{ (?:\1 \} else \{ \2|\2 \} else \{ \1) \}\s*", f.body)]
    caps = [f.place() for f in all_functions if re.fullmatch(r"\s*if \d+ < (\w+) \{ \d+ \} else \{ \1 as \w+ \}\s*", f.body)]
    equal = [f.place() for f in all_functions if f.name == "same"]
    copies = list(grep(files, r"State \{\s*at,\s*nodes: st\.nodes"))
    printed = list(grep(files, r"rt\.e?print\(.*?\)|(?<![:\w])(?:word|number|node|metres|tell|show|gap)\(rt[^)]*\)"))
    bytes_ = list(grep(files, r"(?<![\w.])(?:b|w|f\[\d\]|line\[n - 1\]|text\[at(?: \+ 1)?\]|rest\[i\]) (?:==|!=|<) \d{2,3}\b|, (?:97|118|115|32|10)\)"))
    yield 4, "equality, order, conversion, copying and printing by hand", casts + choices + caps + equal + copies + printed + bytes_

    long = [f"{f.place()} ({f.count()})" for f in all_functions if f.count() > 7]
    facts = {}
    for f in all_functions:
        for fact in f.clauses:
            fact = re.sub(r"\.(?:old|new|now)\b", "", fact)
            if len(fact.split()) > 2 and "result" not in fact:
                facts.setdefault(fact, set()).add(f.place())
    often = [f"{fact} ({len(places)})" for fact, places in facts.items() if len(places) >= 3]
    yield 5, "functions of more than seven parameters; facts in the contracts of three functions or more", long + often

    columns = [f.place() for f in all_functions if len(re.findall(r"&(?:'\w+ )?(?:mut )?\[", f.parameters)) >= 2 and re.search(r"\b(?:n|m|s|rows|count|most|room): usize", f.parameters)]
    yield 6, "functions of several slices with a count beside them", columns

    steps = list(grep(files, r"^\s*(?:if|match) (?:\w+\.)?kind\b.*\{"))
    yield 7, "choices of a step by a kind", steps

    lines = [f"{f.place()} ({f.lines})" for f in all_functions if f.lines >= 40]
    yield 9, "functions of 40 lines or more, the contract counted", lines


def without_clauses(text):
    return re.sub(r"\b(?:requires|ensures)\b[^{]*\{(?:[^{}]|\{[^{}]*\})*\}", "", bare(text))


def alike(files):
    """groups of functions of 25 tokens or more that share nine in ten of them"""
    listed = [(f, re.findall(r"\w+|[^\w\s]", f.parameters + f.body)) for f in functions(files) if "extern" not in f.head]
    listed = [(f, tokens) for f, tokens in listed if len(tokens) >= 25]
    groups = []
    for f, tokens in listed:
        for group in groups:
            match = difflib.SequenceMatcher(None, group[0][1], tokens, False)
            if match.real_quick_ratio() >= 0.9 and match.quick_ratio() >= 0.9 and match.ratio() >= 0.9:
                group.append((f, tokens))
                break
        else:
            groups.append([(f, tokens)])
    return [[f.place() for f, _ in group] for group in groups if len(group) > 1]


def another_way(files):
    code = "\n".join(without_clauses(text) for _, text in files)
    groups = alike(files)
    yield "1. tests against 0", len(re.findall(r"[=!]= 0\b", code))
    yield "1. uses of a variant of an own enum that is an Option or a Result", len(re.findall(
        r"\b(?:Number::(?:Value|NoNumber)|Signed::(?:At|NoCoordinate)|Read::(?:Refused|Accepted)|Verdict::(?:Fine|Faulty)|Answer::(?:Denied|Listed)|Piece::(?:Line|End)|Next::(?:Node|Nothing))\b", code))
    yield "2. functions that share nine in ten of their tokens with another", sum(map(len, groups))
    yield "3. steps of a counter by one", len(re.findall(r"[+-]= 1\b", code))
    yield "4. casts by `as`", len(re.findall(r"\bas [ui](?:8|16|32|64|size)\b", code))


def main(words):
    commit = words.pop(0) if words and not re.fullmatch(r"\d", words[0]) else None
    files = list(sources(commit))
    for point, name, places in points(files):
        print(f"{point}. {len(places)}  {name}")
        if str(point) in words:
            for place in places:
                print(f"    {place}")
    print("\nCounted another way:")
    for name, count in another_way(files):
        print(f"{name}: {count}")


main(sys.argv[1:])
