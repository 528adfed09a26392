#!/usr/bin/env python3
"""Brings the repository's own definitions, lemmas, fields and variables of antt to snake case, once: usedTwice and used-twice to used_twice.

usage: spelling.py [--look]      at the top of the repository; --look writes nothing and lists the table

Turned: every word of a .antt file that begins in lower case and has a capital inside, and every lemma or field whose name is
joined by dashes and that a file of specs/ or proofs/ (but for Proof.antt, whose names are the check's) declares; the same words
in the clauses of .rt files, in must-fail edits and in the code spans of pages. Names of Rust's functions, strings and exported
names stay. A name that would meet another one in some file stays and is listed.
"""

import collections
import glob
import os
import re
import sys

WORD = re.compile(r'[^\s(){}.;,@"«»`\[\]λ]+')
BARE = re.compile(r"(?<![^\s(){};,@λ])" + WORD.pattern)
PATH = re.compile(r"Rattle(?:\.[\w+]+)+(?= as |\.\{|\s|$)")
DECLARED = re.compile(r'^ *(?:(?:pub|abbrev|unfoldable|opaque|record|data|ruleset) +)*([^\s(){}.;,@"«»:λ]+) *(?:\{[^{}\n]*\} *)?[:=({]', re.M)
COMMENT = re.compile(r"(?:(?<=\s)|^)--[^\n]*", re.M)

# Names that would fall together with another one: a word more.
APART = {
    "atMost": "at_most_of",
    "backTo": "back_to_words",
    "byEntries": "by_single_entries",
    "closedOf": "closed_of_word",
    "endsOf": "ends_of_ring",
    "goesBack": "goes_back_at",
    "handOf": "hand_of_worker",
    "laidOut": "laid_out_rows",
    "oneMore": "one_more_act",
    "readBack": "read_back_from",
    "readOut": "read_out_of",
    "recordOf": "record_of_worker",
    "ringOf": "ring_of_parts",
    "slotOf": "slot_of_ring",
    "stepWords": "step_words_of",
    "sureIn": "sure_in_count",
    "wayBy": "way_by_act",
}


def snake(name):
    word = re.sub(r"(?<=[a-z0-9'])([A-Z])([A-Z]*)", lambda m: "_" + (m[1] + m[2]).lower(), name)
    return word.replace("-", "_")


OWN = {os.path.basename(d) for d in glob.glob("crates/*")}
USE = re.compile(r"\buse ([^\s;{]+?)\.\{([^}]*)\}")


def of_a_library(text):
    """The words that a file imports from a library: they keep the library's spelling."""
    words = set()
    for m in USE.finditer(text):
        steps = m[1].split(".")
        if steps[0] != "Rattle" or steps[1] not in OWN:
            words.update(w.split(" as ")[0].strip() for w in m[2].split(","))
    return words


def read(path):
    with open(path, encoding="utf-8") as f:
        return f.read()


def is_camel(w):
    return bool(re.match(r"^[a-z]", w)) and bool(re.search(r"[A-Z]", w)) and bool(re.match(r"^[A-Za-z0-9_'-]+$", w))


def main():
    antt = sorted(p for p in glob.glob("crates/*/*/**/*.antt", recursive=True) if "/out/" not in p)
    rts = sorted(p for p in glob.glob("crates/*/src/**/*.rt", recursive=True))
    texts = {p: read(p) for p in antt + rts}
    code = {p: COMMENT.sub("", texts[p]) for p in antt}
    dashed, words_of = set(), {}
    for p in antt:
        words_of[p] = {m[0] for m in BARE.finditer(PATH.sub(" ", code[p]))}
        if p.endswith(("/Proof.antt", "/Answers.antt", "/Invariants.antt")) and p.count("/") > 3:
            continue
        for m in DECLARED.finditer(code[p]):
            if re.match(r"^[a-z][A-Za-z0-9_'-]*$", m[1]) and "-" in m[1].strip("-"):
                dashed.add(m[1])
    for p in rts:
        words_of[p] = set(re.findall(r"[\w']+", texts[p]))
    table = {}
    for p in antt:
        for w in set(WORD.findall(code[p])):
            if w in dashed or is_camel(w) and not re.match(r"^(Need|At|In)-", w):
                if snake(w) != w:
                    table[w] = snake(w)
    by_new = collections.defaultdict(set)
    for a, b in table.items():
        by_new[b].add(a)
    kept, lemmas = {}, set()
    for b, olds in by_new.items():
        for p, ws in words_of.items():
            here = sorted(a for a in olds if a in ws)
            if not here:
                continue
            if p.endswith(".antt"):
                if len(here) > 1 or b in ws:
                    # a lemma that would have its function's name gets _lem
                    dashes = [a for a in here if not is_camel(a)]
                    lemmas.update(dashes)
                    others = [a for a in here if a not in dashes]
                    if len(dashes) > 1 or len(others) + (b in ws) > 1:
                        for a in here:
                            kept[a] = f"{b}: {', '.join(here)} in {p}, {'with' if b in ws else 'without'} it"
            elif b in ws:
                # a function of that name is no matter; a parameter or a local would hide the word
                if re.search(rf"\b(?:let (?:mut )?)?{re.escape(b)}\s*:(?!:)|let (?:mut )?{re.escape(b)}\b|for {re.escape(b)} in", texts[p]):
                    for a in here:
                        kept[a] = f"{b} is a variable of {p}"
    every = set().union(*words_of.values())
    for a in lemmas:
        table[a] += "_lem"
        if table[a] in every:
            kept[a] = table[a] + " stands already"
    for a, b in APART.items():
        if a in kept and b not in every:
            table[a] = b
            del kept[a]
    # what the first run turned, spelling.tsv beside this file: the same everywhere
    with open(os.path.join(os.path.dirname(os.path.abspath(__file__)), "spelling.tsv"), encoding="utf-8") as f:
        for line in f:
            a, b = line.rstrip("\n").split("\t")
            if a in table or a in kept:
                table[a] = b
                kept.pop(a, None)
    for a in kept:
        del table[a]
    if "--look" in sys.argv:
        for a, b in sorted(table.items()):
            print(f"{a}\t{b}")
    for a, why in sorted(kept.items()):
        print(f"left: {a}: {why}", file=sys.stderr)
    print(f"{len(table)} names turned, {len(kept)} left", file=sys.stderr)
    if "--look" in sys.argv:
        return

    def turn(text, only_camel=False, keep=()):
        def one(m):
            w = m[0]
            if w in table and w not in keep and not (only_camel and not is_camel(w)):
                return table[w]
            return w

        return WORD.sub(one, text)

    def antt_text(t):
        out, at = [], 0
        keep = of_a_library(t)
        for m in COMMENT.finditer(t):
            out.append(turn(t[at : m.start()], keep=keep))
            out.append(spans(m[0]))
            at = m.end()
        out.append(turn(t[at:], keep=keep))
        return "".join(out)

    def spans(t):
        t = re.sub(r"`[^`\n]*`", lambda m: turn(m[0]), t)
        return turn(t, only_camel=True)

    def rt_text(t):
        # camel case in lower case first stands in clauses alone; strings stay
        return "".join(part if part.startswith(("b\"", "\"")) else turn(part, only_camel=True) for part in re.split(r'(b?"(?:[^"\\\n]|\\.)*")', t))

    def slip(t):
        head, colon, rest = t.partition(": ")
        where, colon2, rest = rest.partition(":")
        return head + colon + turn(where) + colon2 + spans(rest)

    n = 0
    for p, t in texts.items():
        new = antt_text(t) if p.endswith(".antt") else rt_text(t)
        if new != t:
            n += 1
            with open(p, "w", encoding="utf-8") as f:
                f.write(new)
    for p in sorted(glob.glob("crates/*/must-fail/*.edit")) + sorted(glob.glob("*.md") + glob.glob("docs/**/*.md", recursive=True) + glob.glob("hosts/**/*.md", recursive=True) + glob.glob("tests/*.md")):
        if os.path.basename(p).startswith("PORT"):
            continue
        t = read(p)
        if p.endswith(".edit"):
            new = "".join(turn(l) if l.startswith(("old:", "new:")) else slip(l) for l in t.splitlines(True))
        else:
            new = spans(t)
        if new != t:
            n += 1
            with open(p, "w", encoding="utf-8") as f:
                f.write(new)
    print(f"{n} files", file=sys.stderr)


main()
