#!/usr/bin/env python3
"""sides.py COMMIT: what changed since that commit of what the crates promise, old and new one under the other, in Markdown: the
signatures and clauses of public functions, the types, the definitions of specs/ and the theorems of proofs/. docs/DESIGN-PASS.md
ends with what it prints."""
import re
import subprocess
import sys

# what a function or a definition is called now, where another name, or another place in a type, stands for it
MOVED = {
    "memory gather": "memory Aims::gather",
    "memory forget": "memory Aims::forget",
    "memory first_open": "memory Winners::first_open",
    "memory replay": "memory Winners::replay",
    "reading mark": "reading Marks::insert",
    "reading marked": "reading Marks::contains",
    "taking link": "taking Network::link",
    "grammar arc_at": "grammar plain_line",
    "grammar point_at": "grammar plain_line",
    "grammar site_at": "grammar plain_line",
    "memory Aims": "memory SideBySide",
    "taking Arcs": "memory Arcs",
    "meaning or_else": "meaning and_then",
    "reading second_of": "reading row_of",
    "reading third_of": "reading row_of",
    "meaning else_first": "meaning then_first",
    "meaning else_later": "meaning then_later",
    "meaning else_zero": "meaning then_fine",
}

# what states now what the lemmas of a file stated that are gone
STATED = {
    ("grammar", "Laws"): "the contracts of `problem_of`, `data_of` and `line_of`",
    ("grammar", "Lines"): "`DigitsSaid`, `SignedRead` and the contract of `numbers`; `signed_minus`, `sofar_ended`",
    ("inspect", "Faults"): "the contract of `first_fault`",
    ("inspect", "Laws"): "`Long` (specs/Entries), `points_placed` (Placed), and `sound` of `search`'s Checked",
    ("inspect", "Order"): "the contracts of `inspect` and `Entries::check`",
    ("inspect", "Single"): "the contracts of `point_fault` and `arc_fault`; what stays is in Sites",
    ("meaning", "Passed"): "`not_fine`, `passed`, `then_fine`, `at_fine` (Tests)",
    ("meaning", "Places"): "`numbered`, of any `Fault`",
    ("meaning", "Tests"): "`then_fine`, `then_later`, `then_first`",
    ("memory", "Aims"): "`aims_kept` (Columns)",
    ("memory", "Cleared"): "the contracts of std's `fill` and of `clear`",
    ("memory", "Closest"): "`site_among`, and the contract of `line_from`",
    ("panel", "Codes"): "`ReadFits`, `AnswerFits`, `RefusalFits`, `CountsFit` themselves",
    ("panel", "Spans"): "`span_stops` of `meaning`, and the contract of `wick_route`",
    ("readers", "Outcomes"): "the contracts of the three readers; `front_kept`, `node_kept` of `meaning`",
    ("readers", "Rows"): "`ArcRows`, `PointRows`, and the contracts of the three functions that write",
    ("reading", "Bits"): "std's `and_mask`, and the contracts of `Marks`",
    ("reading", "Lines"): "`lines_at`, `line_inside` of `text`; the contracts of `said_at` and `judged`",
    ("reading", "Sizes"): "the contract of std's `unsigned_abs`",
    ("reading", "Steps"): "the contracts of `Reader`'s methods",
    ("routes", "Lines"): "the field `linked` of `Leads`",
    ("routes", "Route"): "`filled_on`, and the contract of `write_route`",
    ("search", "Checked"): "`sound` (Checked): `Sound` of `memory`",
    ("search", "Outcome"): "the contract of `search`",
    ("search", "Runs"): "`Going`, the invariant of `run`",
    ("straight", "Gaps"): "std's contracts of `-` and `unsigned_abs`; `sum_is`, `sum_small` (Laws)",
    ("straight", "Laws"): "`back_near`",
    ("taking", "Chaining"): "`Sound` of `memory`, the arrays' types and `Unlinked`",
    ("taking", "Parents"): "`Holds.leads` of `memory`",
    ("text", "Laws"): "the contracts of the crate's functions; `parted`, `line_inside`; std's `prefix_len-le-length`",
}


def git(*words):
    return subprocess.run(["git", *words], check=True, capture_output=True, text=True).stdout


def files(commit, pattern):
    listed = git("ls-tree", "-r", "--name-only", commit, "crates") if commit else git("ls-files", "crates")
    for path in listed.splitlines():
        if re.match(pattern, path):
            yield path, git("show", f"{commit}:{path}") if commit else open(path).read()


def flat(text):
    """without comments, each run of blanks one, no comma before a closing bracket"""
    text = " ".join(re.sub(r"(//|-- )[^\n]*", "", text).split())
    return re.sub(r",? ([)\]}])", r"\1", re.sub(r"([(\[]) ", r"\1", text))


def code(commit):
    """name -> (kind, text) of the public functions, types and constants of src/"""
    found = {}
    for path, text in files(commit, r"crates/\w+/src/.*\.rt$"):
        crate, of = path.split("/")[1], ""
        lines = text.split("\n")
        i = 0
        while i < len(lines):
            line = lines[i]
            impl = re.match(r"impl(?:<[^>]*>)? (?:.* for )?(\w+)", line)
            if impl and " for " in line:
                name, block = line.split("{")[0].strip(), [line]
                while lines[i] != "}":
                    i += 1
                    if "ghost" in lines[i] and "ghost use" not in lines[i]:
                        block.append(lines[i])
                if len(block) > 1:
                    found[f"{crate} {name}"] = ("impl", "\n".join(block + ["}"]))
            elif impl:
                of = impl.group(1) + "::"
            elif line == "}":
                of = ""
            public = re.match(r"\s*pub (?:extern \"C\" )?(fn|struct|enum|const|type) (\w+)", line)
            if public:
                kind, name = public.groups()
                block = [line]
                if kind == "fn":
                    while not lines[i].rstrip().endswith("{") or re.search(r"(requires|ensures)\b[^{]*\{$", lines[i]):
                        i += 1
                        block.append(lines[i])
                    block[-1] = block[-1].rstrip().removesuffix("{")
                elif kind in ("struct", "enum") and line.endswith("{"):
                    while lines[i] != "}":
                        i += 1
                        block.append(lines[i])
                    block = [b for b in block if not b.strip().startswith("//")]
                found[f"{crate} {of}{name}"] = (kind, "\n".join(b for b in block if b.strip()))
            i += 1
    return found


def statements(commit, folder):
    """name -> (kind, text) of the public definitions of specs/, or of the public lemmas of meaning's proofs/"""
    found = {}
    for path, text in files(commit, rf"crates/\w+/{folder}/\w+\.antt$"):
        crate = path.split("/")[1]
        block, name = [], None
        for line in text.split("\n") + [""]:
            start = re.match(r"\s*(?:(?:abbrev|unfoldable) )?pub (?:(record|data|abbrev) )?(\S+)", line)
            field = block and re.match(r"\s*pub (record|data) ", block[0]) and len(line) - len(line.lstrip()) > len(block[0]) - len(block[0].lstrip())
            if start and not field and not line.startswith("    "):
                if start.group(2) in ("mod", "use"):
                    continue
                name, block = f"{crate} {start.group(2)}", [line]
            elif name and line.strip() and not line.strip().startswith("--"):
                block.append(line)
            elif not line.strip() and name:
                found[name] = (folder, "\n".join(block))
                name, block = None, []
    return found


def stated(text):
    """the statement of a lemma, without its proof; a definition whole"""
    if re.match(r"\s*(?:abbrev |unfoldable )?pub (?:record|data) |\s*(?:abbrev|unfoldable) pub ", text):
        return text
    out = []
    for i, line in enumerate(text.split("\n")):
        if i and not line.startswith(" ") or i and re.match(r"\s*(unfolding|where)\b", line):
            break
        if i and not re.match(r"\s+(→|[({])", line) and "record" not in text.split("\n")[0]:
            break
        out.append(line)
    return "\n".join(out)


def show(title, old, new, kind):
    gone = sorted(k for k in old if k not in new and MOVED.get(k) not in new)
    pairs = [(k, MOVED.get(k, k)) for k in old if MOVED.get(k, k) in new and flat(old[k][1]) != flat(new[MOVED.get(k, k)][1])]
    fresh = sorted(k for k in new if k not in old and k not in MOVED.values())
    print(f"\n### {title}\n")
    for k, now in pairs:
        name = f"`{k}`" if k == now else f"`{k}`, now `{now}`"
        print(f"{name}\n\n```{kind}\n{old[k][1]}\n// now\n{new[now][1]}\n```\n".replace("// now", "-- now" if kind == "antt" else "// now"))
    if gone:
        print("Gone: " + ", ".join(f"`{k}`" for k in gone) + ".\n")
    if fresh:
        print("New: " + ", ".join(f"`{k}`" for k in fresh) + ".")


def lemmas(commit):
    """(crate, file) -> the names that the files of proofs/ declare, without fields of records"""
    found = {}
    for path, text in files(commit, r"crates/\w+/proofs/\w+\.antt$"):
        names, fields = found.setdefault((path.split("/")[1], path.split("/")[-1][:-5]), []), False
        for line in text.split("\n"):
            start = re.match(r" {0,4}(?:pub )?(?:abbrev |unfoldable )?(?:pub )?(record |data )?([\w'→-]+)(?: [({].*[)}])? : ", line)
            if start and not fields and start.group(2) not in ("go", "by"):
                names.append(start.group(2))
            fields = bool(line.strip()) and (fields or bool(start and start.group(1)))
    return found


def functions(commit):
    found = {}
    for path, text in files(commit, r"crates/\w+/src/.*\.rt$"):
        names = re.findall(r"\bfn (\w+)", re.sub(r"//[^\n]*", "", text))
        found.setdefault(path.split("/")[1], []).extend(names)
    return found


def gone(commit):
    print("\n### Functions and lemmas that are gone by their old names\n\n| crate | functions of src/ |\n|---|---|")
    now = functions(None)
    for crate, names in functions(commit).items():
        left = [n for n in dict.fromkeys(names) if n not in now.get(crate, ())]
        if left:
            print(f"| `{crate}` | {', '.join(f'`{n}`' for n in left)} |")
    print("\n| crate | file of proofs/ | lemmas | what states it now |\n|---|---|---|---|")
    stand = {}
    for (crate, _), names in lemmas(None).items():
        stand.setdefault(crate, set()).update(names)
    for (crate, file), names in lemmas(commit).items():
        left = [n for n in dict.fromkeys(names) if n not in stand.get(crate, ())]
        if left:
            now = STATED.get((crate, file), "the contracts of the functions of that name or step, which the check proves without it")
            print(f"| `{crate}` | {file} | {', '.join(f'`{n}`' for n in left)} | {now} |")


def main(commit):
    show("Public signatures, clauses, types and invariants", code(commit), code(None), "rust")
    show("Definitions", statements(commit, "specs"), statements(None, "specs"), "antt")
    both = [{k: (x, stated(t)) for k, (x, t) in statements(c, "proofs").items() if k.startswith("meaning ")} for c in (commit, None)]
    show("Theorems and lemmas of `meaning`", *both, "antt")
    gone(commit)


main(*sys.argv[1:])
