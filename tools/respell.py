#!/usr/bin/env python3
"""Brings the repository's own definitions and lemmas to snake case.

usage: python3 tools/respell.py [--list]      at the top of the repository, once, after the port's own script

Types, modules and facts keep their capitals; functions of src/, strings and words of comments keep their names.
--list prints the names and changes nothing.
"""

import os
import re
import sys

WORD = r"[^\s(){}\[\],;.\"`@\u00b7]+"
DECLARED = re.compile(r"^\s*(?:(?:pub|abbrev|unfoldable|ghost|let|syntax)\s+)*(" + WORD + r"(?: " + WORD + r")*)\s+:\s")
# Names that would fall together with another name, and what they are called in its place.
OTHERWISE = {
    "arrival-choice": "arrival_choice_lem",
    "bench-chain": "bench_chain_lem",
    "chain-from": "chain_from_lem",
    "closing-choice": "closing_choice_lem",
    "count-ends": "count_ends_lem",
    "counts-fit": "counts_fit_lem",
    "digit-of": "digit_of_lem",
    "due-heads": "due_heads_lem",
    "entry-fits": "entry_fits_lem",
    "entry-from": "entry_from_lem",
    "first-held": "first_held_lem",
    "form-check": "form_check_lem",
    "is-sound": "is_sound_lem",
    "last-table": "last_table_lem",
    "levelling-choice": "levelling_choice_lem",
    "match-in": "match_in_lem",
    "more-lines": "more_lines_lem",
    "read-bench": "read_bench_lem",
    "read-field": "read_field_lem",
    "read-jobs": "read_jobs_lem",
    "read-lines": "read_lines_lem",
    "read-sheet": "read_sheet_lem",
    "records-read": "records_read_lem",
    "refused-by": "refused_by_lem",
    "rising-table": "rising_table_lem",
    "sheet-lines": "sheet_lines_lem",
    "sizes-fit": "sizes_fit_lem",
    "steps-from": "steps_from_lem",
    "tight-set": "tight_set_lem",
    "unreadable-line": "unreadable_line_lem",
    "reading-of": "reading_of_lem",
}
# Names that the port's script has made already, and that would fall together with a definition; in proofs alone.
MADE = {n: n + "_lem" for n in ("goes_on", "holder_in", "in_list", "left_by", "load_is", "at_level")}


def files(*ends):
    for folder, dirs, names in os.walk("crates"):
        dirs[:] = sorted(d for d in dirs if d != "out")
        for n in sorted(names):
            if n.endswith(ends):
                yield os.path.join(folder, n)


def read(path):
    with open(path, encoding="utf-8") as f:
        return f.read()


def snake(name):
    """The name in snake case: a part that is a type by itself keeps its capital."""
    parts = []
    for p in name.split("-"):
        parts.append(re.sub(r"(?<=[a-z0-9\u2080-\u2089])([A-Z])", lambda m: "_" + m.group(1).lower(), p) if p[:1].islower() else p)
    return "_".join(p for p in parts if p)


def turns(name):
    return name[:1].islower() and ("-" in name.strip("-") or re.search(r"[a-z0-9][A-Z]", name)) and not re.search(r"[-<>=+]{2}|[^\w'-]", name.replace("\u2192", ""))


def declared():
    """The names that specs/ and proofs/ declare, at the head of a line: definitions, lemmas, fields, helpers below a where."""
    found = {}
    for path in files(".antt"):
        of_function = os.path.basename(path) == "Proof.antt"
        for line in read(path).split("\n"):
            m = DECLARED.match(line)
            if not m or line.lstrip().startswith("--"):
                continue
            for name in m.group(1).split():
                made = re.search(r":\s+\(?(?:tie|t)\.", line) or name.endswith("-spec") or re.match(r"(?:invariant|decreases)-", name)
                if not (of_function and made) and turns(name):
                    found.setdefault(name, path)
    return found


def kit_names(text):
    """The names that a file brings in from the kit."""
    got = set()
    for m in re.finditer(r"^(?:ghost )?use ([^\n]*?)\.\{([^}]*)\}", text, re.M):
        if not re.match(r"Rattle\.(?!std\b|core\b|bytes\b|io\b|libc\b|os\b|std_)", m.group(1)):
            got |= {w.strip() for w in m.group(2).split(",")}
    return got


def turn(text, names, of_source):
    """Respells the words of one file; comments keep words with a dash, and strings all."""
    skip = kit_names(text)
    word = re.compile(WORD)
    out = []
    for line in text.split("\n"):
        mark = "//" if of_source else "--"
        cut = len(line)
        at = re.search(r"(^|\s)" + mark + r"(\s|$)", line)
        if at:
            cut = at.start()
        code, comment = line[:cut], line[cut:]

        def put(m):
            w = m.group(0)
            return names[w] if w in names and w not in skip else w

        pieces = re.split(r"(\"(?:[^\"\\]|\\.)*\")", code) if of_source else [code]
        code = "".join(p if p.startswith('"') and of_source else word.sub(put, p) for p in pieces)
        comment = word.sub(lambda m: names[m.group(0)] if m.group(0) in names and "-" not in m.group(0) else m.group(0), comment)
        out.append(code + comment)
    return "\n".join(out)


def main(argv):
    found = declared()
    names = {n: OTHERWISE.get(n, snake(n)) for n in found}
    if argv == ["--list"]:
        for n in sorted(names):
            print(n, names[n], found[n])
        return 0
    for path in files(".antt", ".rt"):
        old = read(path)
        of_source = path.endswith(".rt")
        of_lemma = "/proofs/" in path
        new = turn(old, names | (MADE if of_lemma else {}), of_source)
        if new != old:
            with open(path, "w", encoding="utf-8") as f:
                f.write(new)
    return 0


if __name__ == "__main__":
    raise SystemExit(main(sys.argv[1:]))
