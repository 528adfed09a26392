#!/usr/bin/env python3
"""Turns proofs of the older form, a Proof.antt of goals that tie.spec joins, to Invariants.antt and Answers.antt.

usage: answers.py [--names FILE] CRATE [FUNCTION..]     at the top of the repository

It asks `rt check --generated --old-names` for each goal's old and new name (or reads FILE), renames the goals and the paths of
what is known at them, leaves out answers that are `search rules` alone, since the check tries more than these where there is
no answer, and says what it could not turn. A FUNCTION is a folder below proofs/.
"""

import glob
import json
import os
import re
import subprocess
import sys
import tempfile

NAME = r"[^\s(){}.;,@\"«»]+"
NEED = re.compile(rf"^({NAME}) : tie\.Need-({NAME})(.*)$")
MEASURE = re.compile(rf"^(?:abbrev )?(?:pub )?({NAME}) : tie\.((?:invariant|decreases)-{NAME})$")


def plain(s):
    s = s.replace("-", "_").replace(".", "_")
    return s[:-4] if s.endswith("_lem") else s


def blocks(text):
    """Items: runs of lines that begin at the left edge, with what is indented below."""
    out = []
    for line in text.split("\n"):
        if line.strip() == "":
            out.append([])
        elif line[0] in " \t)" and out and out[-1]:
            out[-1].append(line)
        else:
            out.append([line])
    return [b for b in out if b]


def parameters(root, crate, folder):
    """A function's parameters by its text, where its name stands once."""
    found = []
    for p in glob.glob(os.path.join(root, "crates", crate, "src", "**", "*.rt"), recursive=True):
        found += re.findall(rf"\bfn {re.escape(folder.split('/')[-1])}\s*(?:<[^(]*>)?\(([^)]*)\)", open(p, encoding="utf-8").read())
    return re.findall(r"(?:^|,)\s*(?:mut )?(\w+)\s*:", found[0]) if len(found) == 1 else []


def split(text, n):
    """The parts of a tuple that is written out, n of them; none where it is not."""
    text = text.strip()
    parts, depth, at = [], 0, 1
    if text.startswith("("):
        for i, ch in enumerate(text):
            depth += {"(": 1, "{": 1, ")": -1, "}": -1}.get(ch, 0)
            if depth == 1 and ch == ",":
                parts.append(text[at:i].strip())
                at = i + 1
            if depth == 0:
                if i == len(text) - 1:
                    parts.append(text[at:i].strip())
                else:
                    parts = []
                break
    if parts and not parts[-1]:
        parts.pop()
    if len(parts) == 2 and n > 2:
        rest = split(parts[1], n - 1)
        if rest:
            return [parts[0]] + rest
    return parts if len(parts) == n else []


def fields(body, names):
    """A proof of clauses joined by ×, as the record of them that is asked today."""
    if len(names) < 2 or re.match(r"\s*(record|search|let|λ|grind|simp|absurd)\b", body):
        return body
    text = body.strip()
    parts = split(text, len(names))
    if not parts:
        ends = [".1" * i + ".0" for i in range(len(names) - 1)] + [".1" * (len(names) - 1)]
        return " let both = " + text + " in record { " + "; ".join(f"{n} = both{e}" for n, e in zip(names, ends)) + " }"
    return " record { " + "; ".join(f"{n} = {p}" for n, p in zip(names, parts)) + " }"


def at_name(parts, names):
    """The name where the older form had the place in a tuple that nests to the right, and what follows."""
    parts = list(parts)
    k = 0
    while k < len(names) - 1:
        if not parts or parts[0] not in ("0", "1"):
            return None
        if parts.pop(0) == "0":
            break
        k += 1
    return [names[k]] + parts


def last_fields(body, names):
    """The same, behind a body's `let`s."""
    m = re.match(r"\s*let\b", body)
    if not m or len(names) < 2:
        return fields(body, names)
    depth, words, at, tail = 0, 0, 0, None
    for w in re.finditer(r"[(){}]|(?<![\w.'-])(?:let|in)(?![\w'-])", body):
        if w[0] in "({":
            depth += 1
        elif w[0] in ")}":
            depth -= 1
        elif depth == 0:
            words += 1 if w[0] == "let" else -1
            if w[0] == "in" and words == 0:
                tail = w.end()
    if tail is None or body[tail:].strip().startswith(("search", "omega", "rw", "let")):
        return body
    space = re.match(r"\s*", body[tail:])[0]
    return body[:tail] + space + fields(body[tail:], names).strip()


class Turned:
    def __init__(self, names, where, params=()):
        self.where = where
        self.params = params
        self.names = names
        self.parent, self.step, self.arm, self.typed, self.index = {}, {}, {}, {}, {}
        for i, (place, parent, (old, new), _callee, _) in enumerate(names["places"]):
            self.parent[plain(place)] = plain(parent) if parent else None
            self.step.setdefault(plain(place), (plain(old), new))
            self.index.setdefault(plain(place), i)
            if i < len(names["arms"]) and names["arms"][i]:
                self.arm.setdefault(plain(place), names["arms"][i])
        self.needs = {}
        for (old, new), (at, _) in zip(names["needs"], names["asked_at"]):
            self.needs[plain(old)] = (new, plain(at))
        self.asked = {plain(old): fs for old, fs in names.get("asked", {}).items()}
        self.left = []
        self.helpers = {}

    def path(self, place, parts):
        """The new path of what `c` with these parts is at an old place."""
        parts = list(parts)
        here = place
        while parts and parts[0] == "before":
            parts.pop(0)
            if self.parent.get(place) is None:
                # a step fewer than there were: by the names alone
                while parts and parts[0] == "before":
                    parts.pop(0)
                break
            place = self.parent[place]
        if not parts:
            return place, []
        head = plain(parts[0])
        if head == "requires" and self.names.get("pre") and len(self.names["pre"]["fields"]) > 1:
            found = at_name(parts[1:], self.names["pre"]["fields"])
            return place, ["requires"] + found if found else parts
        if head in ("args", "requires", "well_formed", "ranges", "type_inv"):
            return place, parts
        q = place
        while q is not None and self.step.get(q, ("", ""))[0] != head:
            q = self.parent.get(q)
        if q is None and place != here:
            q = place = here
            while q is not None and self.step.get(q, ("", ""))[0] != head:
                q = self.parent.get(q)
        if q is None:
            return None
        new = self.step[q][1]
        rest = parts[1:]
        arm = self.arm.get(q)
        candidates = [self.arm[p] for p in self.arm if self.arm[p] and self.chain(p, q)]
        if arm:
            best = None
            for field, step, old in arm[2]:
                if plain(step) == head and [plain(x) for x in old] == [plain(x) for x in rest[: len(old)]]:
                    if best is None or len(old) > len(best[1]):
                        best = (field, old)
            if best:
                return place, [arm[0], best[0]] + rest[len(best[1]) :]
        # a deeper arm may have taken this step's fields over
        for a in candidates:
            best = None
            for field, step, old in a[2]:
                if plain(step) == head and [plain(x) for x in old] == [plain(x) for x in rest[: len(old)]]:
                    if best is None or len(old) > len(best[1]):
                        best = (field, old)
            if best and not best[0].endswith("-own"):
                return place, [a[0], best[0]] + rest[len(best[1]) :]
        at = self.index[q]
        said = self.names["clauses"][at] if at < len(self.names["clauses"]) else None
        callee = self.names["places"][at][3]
        if rest and rest[0] == "ensures" and said and len(said["fields"]) > 1 and not (said["text"] or said["told"] or said["utf8"]):
            rest = ["ensures"] + (at_name(rest[1:], said["fields"]) or rest[1:])
        elif len(rest) > 1 and rest[0] in ("new", "auto") and callee in self.names["params"] and rest[1] in ("0", "1"):
            rest = [rest[0]] + (at_name(rest[1:], self.names["params"][callee] + [""]) or rest[1:])
        return place, [new] + rest

    def chain(self, p, q):
        while p is not None:
            if p == q:
                return True
            p = self.parent.get(p)
        return False

    def body(self, text, place, var="c"):
        # a lemma of the file over c is written out where it is used: its c is another goal's
        for n, (v, whole) in self.helpers.items():
            put = lambda m: "(" + re.sub(rf"(?<![\w.'-]){re.escape(v)}(?![\w'-])", m[1], whole) + ")"
            at = rf"{re.escape(n)} ({NAME}(?:\.before)*)(?![\w'.-])"
            text = re.sub(rf"\({at}\)", put, text)
            text = re.sub(rf"(?<![\w.'-]){at}", put, text)
        names = {var: place}
        # a `let` of an earlier place names no value any more
        for m in re.finditer(rf"\blet ({NAME}) = ({NAME})((?:\.before)*) in\b", text):
            if m[2] in names:
                r = self.path(names[m[2]], [p for p in m[3].split(".") if p])
                if r:
                    names[m[1]] = r[0]
                    text = text.replace(m[0], "\x01", 1)
        text = re.sub(r"\x01\s*", "", text)
        # a `let` of a path stands as long as what is cited of it begins with what it turns to
        for m in list(re.finditer(rf"\blet ({NAME}) = ({NAME})((?:\.[^\s().,;{{}}@\"«»\]]+)+) in\b", text)):
            if m[2] not in names:
                continue
            parts = m[3].split(".")[1:]
            own = self.path(names[m[2]], parts)
            rest = text[text.index(m[0]) + len(m[0]) :]
            stays = own is not None
            for u in re.finditer(rf"(?<![\w.'-]){re.escape(m[1])}((?:\.[^\s().,;{{}}@\"«»\]]+)*)(?![\w'-])", rest):
                whole = self.path(names[m[2]], parts + u[1].split(".")[1:])
                if own is None or whole is None or whole[1] != own[1] + u[1].split(".")[1:]:
                    stays = False
            if not stays:
                at = text.index(m[0])
                rest = re.sub(rf"(?<![\w.'-]){re.escape(m[1])}(?![\w'-])", lambda _: m[2] + m[3], rest)
                text = text[:at] + rest.lstrip()

        def one(m):
            v, parts = m[1], m[2].split(".")[1:]
            if v not in names:
                return m[0]
            r = self.path(names[v], parts)
            if r is None:
                self.left.append(f"{self.where}: {m[0]} at {names[v]}")
                return m[0]
            return "c" + "".join("." + p for p in r[1])

        text = re.sub(rf"(?<![\w.'-])({'|'.join(re.escape(n) for n in names)})((?:\.[^\s().,;{{}}@\"«»\]]+)+)", one, text)
        # a parameter that was moved had a number for its name
        text = re.sub(r"\bc\.args\.t(\d+)\b", lambda m: "c.args." + self.params[int(m[1]) - 1] if 0 < int(m[1]) <= len(self.params) else m[0], text)
        return re.sub(r"\.(well|type)-(formed|inv)\b", r".\1_\2", text)

    def loop_body(self, old, params, text):
        """An invariant's or a measure's text over the record l."""
        loops = self.names["loops"]
        changed = self.names["changed"]
        k = next((i for i, ((o, n), _v) in enumerate(loops) if plain(o) == plain(old)), None)
        if k is None:
            return None, None
        (o, new), vs = loops[k]
        # what each variable was when the loop began, then those that it changes
        to = [f"l.initial.{v}" if c else f"l.{v}" for v, c in zip(vs, changed[k])]
        to += [f"l.{v}" for v, c in zip(vs, changed[k]) if c]
        if len(to) != len(params):
            self.left.append(f"{self.where}: the loop {old} has {len(params)} parameters, {to}")
            return new, text
        for p, t in zip(params, to):
            if p == "_":
                continue
            text = re.sub(rf"(?<![\w.'₀-]){re.escape(p)}(?![\w'₀-])(?!\s*=(?!=))", "\0" + t.replace("\\", ""), text)
        return new, text.replace("\0", "")


def turn(root, crate, folder, names):
    path = os.path.join(root, "crates", crate, "proofs", folder, "Proof.antt")
    text = open(path, encoding="utf-8").read()
    key = f"Rattle-{crate}-proofs.{folder.replace('/', '.')}.Lts"
    if key not in names:
        return [f"{path}: no names"]
    t = Turned(names[key], f"{crate}/{folder}", parameters(root, crate, folder))
    uses, answers, invariants, helpers = [], [], [], False
    items = blocks(text)
    i = 0
    skip_names = set()
    while i < len(items):
        b = items[i]
        line = b[0]
        if line.startswith("use "):
            if not re.search(r"\.(Statement|Tie|Reads|Lts)\b", line):
                uses.append("\n".join(b))
            i += 1
            continue
        if line.startswith("--"):
            answers.append("\n".join(b))
            i += 1
            continue
        m = MEASURE.match(line)
        if m:
            d = items[i + 1]
            i += 2
            extra = []
            while d[0].startswith("unfolding"):
                extra.append("\n".join(d))
                d = items[i]
                i += 1
            whole = "\n".join(d)
            head, eq, rest = whole.partition("=")
            params = head.split()[1:]
            kind, old = m[2].split("-", 1)
            new, out = t.loop_body(old, params, rest)
            if new is None:
                t.left.append(f"{t.where}: no loop {old}")
                new, out = old, rest
            invariants.append(f"abbrev pub {kind}-{new} : goal.{kind}-{new}\n" + "".join(e + "\n" for e in extra) + f"{kind}-{new} l ={out}")
            continue
        m = NEED.match(line)
        if m:
            local = m[1]
            i += 1
            extra = []
            while i < len(items) and items[i][0].startswith("unfolding"):
                extra.append("\n".join(items[i]))
                i += 1
            d = "\n".join(items[i])
            i += 1
            found = t.needs.get(plain(m[2])) or t.needs.get(re.sub(r"^overflow_", "", plain(m[2])))
            if not found:
                t.left.append(f"{t.where}: no goal {m[2]} any more")
                continue
            new, place = found
            head, eq, rest = d.partition("=")
            params = head.split()[1:]
            body = rest.strip()
            if body == "search rules" and not extra:
                continue
            var = params[0] if params else "c"
            body = last_fields(t.body(rest, place, var), t.asked.get(plain(m[2]), []))
            answers.append(f"pub {new} : goal.{new}\n" + "".join(e + "\n" for e in extra) + f"{new} c ={body}")
            continue
        if re.match(rf"^pub {NAME}[-_]spec(?:-\d+)? :", line):
            i += 2
            continue
        h = re.match(rf"^(?:pub )?({NAME}) : \((\w+) : tie\.", line)
        if h and i + 1 < len(items) and (d := re.match(rf"^{re.escape(h[1])} {h[2]} =(.*)$", "\n".join(items[i + 1]), re.S)):
            t.helpers[h[1]] = (h[2], d[1].strip())
            i += 2
            continue
        if "tie." in "\n".join(b):
            t.left.append(f"{t.where}: {line}")
        answers.append("\n".join(b))
        i += 1
    own = f"Rattle.{crate}.proofs.{folder.replace('/', '.')}"
    base = os.path.dirname(path)
    os.remove(path)

    def join_items(xs):
        out = []
        for k, x in enumerate(xs):
            # a signature and its clauses stay together
            first = x.split("\n")[0]
            if k and not re.match(rf"^{NAME} .*=|^{NAME} =|^unfolding", first):
                out.append("")
            out.append(x)
        return "\n".join(out) + "\n"

    def wanted(body):
        keep = []
        for u in uses:
            m = re.search(r"\.\{(.*)\}", u, re.S)
            if not m:
                keep.append(u)
                continue
            ws = [w.strip() for w in m[1].split(",")]
            there = []
            for w in ws:
                n = w.split(" as ")[-1].strip()
                core = n.replace("◌", "")
                if re.search(rf"(?<![\w'-]){re.escape(core)}(?![\w'])", body) or not re.match(r"\w", core) and core in body:
                    there.append(w)
            if there:
                keep.append(u[: m.start()] + ".{" + ", ".join(there) + "}")
        return keep

    if invariants:
        body = join_items(invariants)
        with open(os.path.join(base, "Invariants.antt"), "w", encoding="utf-8") as f:
            f.write("\n".join(wanted(body) + [f"use {own}.Given as goal", "", body]))
    if any(": goal." in a for a in answers):
        body = join_items(answers)
        with open(os.path.join(base, "Answers.antt"), "w", encoding="utf-8") as f:
            f.write("\n".join(wanted(body) + [f"use {own}.Goals as goal", "", body]))
    elif not invariants and not os.listdir(base):
        os.rmdir(base)
    return t.left


def main():
    args = sys.argv[1:]
    if not args or args[0] in ("-h", "--help"):
        print(__doc__)
        return
    file = None
    if args[0] == "--names":
        file = args[1]
        args = args[2:]
    crate, only = args[0], args[1:]
    root = os.getcwd()
    where = os.path.join(root, "crates", crate)
    if file is None:
        d = tempfile.mkdtemp()
        subprocess.run(["rt", "check", "--generated", d, "--old-names"], cwd=where, stdout=subprocess.DEVNULL, stderr=subprocess.DEVNULL)
        file = os.path.join(d, "names.json")
    names = json.load(open(file))
    left = []
    for p in sorted(glob.glob(os.path.join(where, "proofs", "**", "Proof.antt"), recursive=True)):
        folder = os.path.relpath(os.path.dirname(p), os.path.join(where, "proofs"))
        if only and folder not in only:
            continue
        if "tie.spec" not in open(p, encoding="utf-8").read():
            left.append(f"{crate}/{folder}: a walk by hand")
            continue
        left += turn(root, crate, folder, names)
    for l in left:
        print("left: " + l)


main()
