#!/usr/bin/env python3
"""Turns the proof of a function that walks its statements (Proof.antt) into Invariants.antt and Answers.antt.

usage: python3 tools/answers.py CRATE NAMES.json

NAMES.json is what `rt check --generated FOLDER --old-names` writes in the crate's folder: each goal's old name beside today's. An answer that
only searches is dropped, since the check searches by itself. Labels get their new names, `.before` goes, and a place in what a call left
is named by its parameter. A proof of a cycle of calls is left as it is.
"""

import difflib
import glob
import json
import os
import re
import sys

NAME = r"[^\s(){};,\[\]]+"
PATH = re.compile(r"(?<![\w.'-])([a-z]\w*)((?:\.[^\s(){};,\[\]]+))")


def clauses_of_sources():
    """Of each function by its path: the names of its ensures, where it has several."""
    found = {}
    for p in glob.glob(os.path.join("crates", "*", "src", "**", "*.rt"), recursive=True):
        crate = p.split(os.sep)[1]
        mods = os.path.relpath(p, os.path.join("crates", crate, "src"))[:-3].split(os.sep)
        if mods[-1] in ("lib", "main", "mod"):
            mods = mods[:-1]
        where, owner, fn = [crate] + mods, None, None
        for line in open(p, encoding="utf-8"):
            m = re.match(r"impl(?:<[^>]*>)? (?:\w+ for )?(\w+)", line)
            if m:
                owner = m[1]
            elif line.startswith("}"):
                owner = None
            m = re.match(r"(\s*)(?:pub(?:\([^)]*\))? )?(?:unsafe )?(?:extern \"C\" )?fn (\w+)", line)
            if m:
                fn = "::".join(where + ([owner] if owner and m[1] else []) + [m[2]])
                found[fn] = []
            m = re.match(r"\s*ensures (\w+) \{", line)
            if m and fn:
                found[fn].append(m[1])
    return {k: v for k, v in found.items() if len(v) > 1}


def norm(s):
    return s.replace("-", "_").lower()


def groups(text):
    """The arguments that stand side by side in a term."""
    out, depth, cur = [], 0, ""
    for ch in text:
        if ch.isspace() and depth == 0:
            if cur:
                out.append(cur)
            cur = ""
            continue
        depth += (ch in "([{") - (ch in ")]}")
        if depth < 0:
            break
        cur += ch
    return out + [cur] if cur else out


def parameters_of(crate):
    """Of each function of a crate by its name: its parameters' names."""
    found = {}
    for p in glob.glob(os.path.join("crates", crate, "src", "**", "*.rt"), recursive=True):
        for m in re.finditer(r"\bfn (\w+)\(([^)]*)\)", open(p, encoding="utf-8").read()):
            found[m[1]] = [re.sub(r"^(?:mut )?(\w+):.*$", r"\1", a.strip(), flags=re.S) for a in m[2].split(",") if a.strip()]
    return found


def split(text):
    """The head comment and imports, and the declarations, each a list of lines."""
    head, decls, cur = [], [], None
    for line in text.split("\n"):
        if line.startswith("use ") or line.startswith("pub use ") or (cur is None and (line.startswith("--") or not line.strip())):
            if cur is None or line.startswith(("use ", "pub use ")):
                head.append(line)
                continue
        if line.strip() and not line[0].isspace():
            m = re.match(r"((?:pub |abbrev |unfoldable |data |record |infixl? \d+ )*)([^\s:]+)(?: \{[^{}]*\})* :", line)
            if m or line.startswith("--"):
                cur = [line]
                decls.append(cur)
                continue
        if cur is None:
            head.append(line)
        else:
            cur.append(line)
    return head, decls


def name_of(decl):
    m = re.match(r"((?:pub |abbrev |unfoldable |data |record )*)([^\s:]+)(?: \{[^{}]*\})* :", decl[0])
    return m[2] if m else None


class Labels:
    def __init__(self, d):
        self.by = {}
        self.callee = {}
        for place, parent, (old, new), callee, _ in d["places"]:
            if old:
                self.by.setdefault(norm(old), new)
                if callee:
                    self.callee[new] = callee
        for (old, new), _ in d["loops"]:
            self.by[norm(old)] = new
        # What a match binds, and the fact that a value has its type, by their old labels.
        self.fields = {}
        for arm in d["arms"]:
            if arm:
                for new, old, path in arm[2]:
                    if path:
                        self.fields[(norm(old), tuple(path))] = f"{arm[0]}.{new}"
        for place in d["typed"]:
            for new, old in place:
                self.fields[(norm(old), ("given",))] = f"type_inv.{new}"
        self.params = d["params"]
        self.args = d["args"]
        self.places = {}
        for p, q in zip([p[0] for p in d["places"]], d["places_by_name"]):
            self.places[norm(p)] = q

    def part(self, old):
        return self.by.get(norm(old), old)

    def path(self, rest):
        """What stands behind c, without its first dot."""
        parts = [p for p in rest.split(".") if p != ""]
        while parts and parts[0] == "before":
            parts.pop(0)
        if not parts:
            return ""
        if parts[0] in ("args", "requires", "lifetimes"):
            return "." + ".".join(parts)
        parts = [{"type-inv": "type_inv"}.get(p, p) for p in parts]
        for k in range(len(parts), 1, -1):
            new = self.fields.get((norm(parts[0]), tuple(parts[1:k])))
            if new:
                return "." + ".".join([new] + parts[k:])
        label = self.part(parts[0])
        parts[0] = label
        callee = self.callee.get(label)
        named = CLAUSES.get(callee)
        if named and len(parts) > 1 and parts[1] == "ensures":
            k, j = 0, 2
            while j < len(parts) and parts[j] == "1" and k < len(named) - 1:
                k, j = k + 1, j + 1
            if k == len(named) - 1:
                parts = parts[:2] + [named[k]] + parts[j:]
            elif j < len(parts) and parts[j] == "0":
                parts = parts[:2] + [named[k]] + parts[j + 1:]
            elif j == len(parts):
                return [f".{label}.ensures.{n}" for n in named[k:]]
        if callee and len(parts) > 2 and parts[1] in ("new", "auto"):
            names = self.params.get(callee)
            k, j = 0, 2
            while j < len(parts) and parts[j] == "1":
                k += 1
                j += 1
            if names and j < len(parts) and parts[j] == "0" and k < len(names):
                parts = parts[:2] + [names[k]] + parts[j + 1:]
        return "." + ".".join(parts)


def flatten(text, labels, var="c"):
    # An alias of an earlier place is c itself.
    while True:
        m = re.search(rf"let (\w+) = {var}(?:\.before)*(?= in\b)[ ]*in\b[ ]*\n?[ ]*", text)
        if not m:
            break
        alias = m[1]
        text = text[:m.start()] + re.sub(rf"(?<![\w.'-]){alias}(?![\w'-])", var, text[m.end():])
    # So is an alias of a step.
    while True:
        m = re.search(rf"let (\w+) = {var}((?:\.before)*\.(?!args\b|requires\b)[\w-]+) in\b[ ]*\n?[ ]*", text)
        if not m:
            break
        text = text[:m.start()] + re.sub(rf"(?<![\w.'-]){m[1]}(?![\w'-])", var + m[2], text[m.end():])
    text = re.sub(r"(?<![\w.'-])a\.result\.now", "a.res.now", text).replace(".args.result", ".args.res")

    def one(m):
        if m[1] != var:
            return m[0]
        to = labels.path(m[2])
        if isinstance(to, str):
            return var + to
        return "(" + ", (".join(var + t for t in to[:-1]) + f", {var}{to[-1]}" + ")" * (len(to) - 1)
    text = re.sub(rf"(?<![\w.'-])({var})((?:\.[^\s(){{}};,\[\]]+))", one, text)
    for old, new in labels.args:
        text = re.sub(re.escape(old.replace(" ", "")) + r"(?![\w-])", new.replace(" ", ""), text)

    def place(m):
        n = labels.places.get(norm(m[2]))
        if not n:
            return m[0]
        return "goal." + n
    text = re.sub(r"\b(?:not-false|not-true) (?:_|[^\s()]+|\([^()]*\)) \(?(c\.if-not-[^\s(),;]+\.(?:true|false))", r"\1", text)
    text = text.replace(".type-inv", ".type_inv").replace("well-formed", "well_formed")
    text = re.sub(r"\(?sym \(not-not [^()\s]+\) ∙ ap not (c\.if-not-[^\s(),;]+\.(?:true|false))\)", r"\1", text)
    # That what a match binds has its type's range, the search finds.
    text = re.sub(rf"{var}\.[\w-]*known_told[\w-]*\.given\.0\.1(?![\w.-])", "(search rules)", text)
    text = re.sub(rf"{var}\.type_inv\.\w+\.0\.1(?![\w.-])", "(search rules)", text)
    text = re.sub(r"= \(search rules\)", "= search rules", text)
    text = re.sub(r"\b(tie|lts)\.((?:Then|Else|After|In|At)[\w-]*)", place, text)
    return text


def imports(head, body):
    out = []
    for line in head:
        m = re.match(r"use ([^\s{]+)\.\{(.*)\}$", line)
        if m:
            if re.search(r"\.(Statement)$", m[1]):
                continue
            keep = []
            for n in m[2].split(", "):
                last = n.split(" as ")[-1]
                parts = [p for p in last.split("◌") if p]
                if parts and all(p in body for p in parts) and ("◌" in last or re.search(rf"(?<![\w'-]){re.escape(last)}(?![\w'-])", body)):
                    keep.append(n)
            if keep:
                out.append(f"use {m[1]}.{{{', '.join(keep)}}}")
            continue
        m = re.match(r"use (\S+) as (\S+)$", line)
        if m:
            if re.search(r"\.(Tie|Reads|Lts)$", m[1]):
                if re.search(rf"(?<![\w'-]){re.escape(m[2])}\.", body):
                    out.append(line)
                continue
            if re.search(rf"(?<![\w'-]){re.escape(m[2])}\.", body):
                out.append(line)
            continue
        if line.startswith("use "):
            n = line.split(".")[-1]
            if re.search(rf"(?<![\w'-]){re.escape(n)}\.", body):
                out.append(line)
    return out


def tuple_parts(inner):
    parts, depth, cur = [], 0, ""
    for ch in inner:
        depth += (ch in "([{") - (ch in ")]}")
        if ch == "," and depth == 0:
            parts.append(cur)
            cur = ""
        else:
            cur += ch
    return parts + [cur] if cur.strip() else parts


def recorded(rhs, names, binders):
    """An answer to several clauses, given as a tuple or as one term, by the clauses' names."""
    rhs = rhs.rstrip()
    if rhs.endswith(")"):
        depth, k = 0, len(rhs) - 1
        while k >= 0:
            depth += (rhs[k] == ")") - (rhs[k] == "(")
            if depth == 0:
                break
            k -= 1
        before, inner = rhs[:k], rhs[k + 1:-1]
        if before.strip() == "" or re.search(r"\sin\s*$", before):
            parts = tuple_parts(inner)
            while len(parts) < len(names) and parts[-1].strip().startswith("("):
                more = tuple_parts(parts[-1].strip()[1:-1])
                if len(more) < 2:
                    break
                parts = parts[:-1] + more
            if len(parts) == len(names):
                return before + "record { " + "; ".join(f"{n} = {v.strip()}" for n, v in zip(names, parts)) + " }"
    m = re.match(r"(.*\sin\s+)(.*)$", rhs, re.S)
    head, last = (m[1], m[2]) if m and "let" in m[1] else (" ", rhs.strip())
    return f"{head}let all = {last} in\n    record {{ " + "; ".join(f"{n} = all.{'1.' * k}{'0' if k < len(names) - 1 else ''}".rstrip(".") for k, n in enumerate(names)) + " }"


SAME = {"loop_holds": "loop_init", "loop_less": "loop_smaller", "loop_again": "loop_preserved"}


def aligned(answers, needs, named):
    """Answers and goals by their old names, where a goal or an answer has no partner; an answer that only searches may go."""
    def key(a):
        n = norm(a)
        for old, new in SAME.items():
            n = re.sub(rf"^{old}(?=$|_)", new, n)
        return n
    ours, theirs = [key(a) for a in answers], [norm(o) for o, _ in needs]
    pairs, lost = [], []
    for tag, i1, i2, j1, j2 in difflib.SequenceMatcher(None, ours, theirs, autojunk=False).get_opcodes():
        if tag == "equal" or tag == "replace" and i2 - i1 == j2 - j1:
            pairs += list(zip(answers[i1:i2], needs[j1:j2]))
        else:
            lost += answers[i1:i2]
    real = [a for a in lost if not re.search(r"= search \(?rules\)?\s*$", "\n".join(named.get(a, [""])).rstrip())]
    if real:
        return f"no goal for {' '.join(real)} among {' '.join(n for n in theirs if n not in ours)}"
    return pairs


def loop_fact(decl, kind, label, variables, changed):
    """What a loop keeps, or its measure: the parameters stand by position, all as the loop begins and then those that it changes."""
    body, unfolding = "\n".join(decl).split("\n", 1)[1], ""
    while body.startswith("unfolding"):
        line, body = body.split("\n", 1)
        unfolding += line + "\n"
    left, right = body.split(" =", 1)
    given = left.split()[1:]
    paths = [("l.initial." if c else "l.") + v for v, c in zip(variables, changed)] + ["l." + v for v, c in zip(variables, changed) if c]
    if len(given) != len(paths):
        return None
    to = {g: p for g, p in zip(given, paths) if g != "_"}
    if to:
        names = "|".join(re.escape(g) for g in sorted(to, key=len, reverse=True))
        right = re.sub(rf"(?<![\w'.′₀-])({names})(?![\w'₀-])", lambda m: to[m[1]], right)
    return f"abbrev pub {kind}-{label} : goal.{kind}-{label}\n{unfolding}{kind}-{label} l ={right.rstrip()}\n"


def parts_of(decl, name):
    """Of an answer: its lines of `unfolding`, its parameters and its term. The statement may go over several lines."""
    lines, k = "\n".join(decl).rstrip().split("\n"), 1
    while k < len(lines) and lines[k][:1].isspace():
        k += 1
    unfolding = []
    while k < len(lines) and lines[k].startswith("unfolding"):
        unfolding.append(lines[k])
        k += 1
    m = re.match(rf"{re.escape(name)}(.*?) =(.*)$", "\n".join(lines[k:]), re.S)
    return m and (unfolding, [p for p in m[1].split() if p != "κs"], m[2])


def turn(path, crate, func, d):
    text = open(path, encoding="utf-8").read()
    head, decls = split(text)
    labels = Labels(d)
    named = {name_of(x): x for x in decls if name_of(x)}
    close = next((x for x in decls if re.search(r"\btie\.close\b", "\n".join(x))), None)
    if close is None:
        return "no close"
    m = re.search(r"tie\.spec(.*)\)\s*$", "\n".join(close), re.S)
    if not m:
        args = []
    else:
        args = m[1].split()
    loops = d["loops"]
    needs = d["needs"]
    invs = args[: 2 * len(loops)] if loops else []
    answers = args[len(invs):]
    # An answer that stands in the list itself only searches.
    answers = re.sub(r"\(λ[^()]*\. search rules\)", "searched", " ".join(answers)).split()
    named["searched"] = ["searched : _", "searched c = search rules"]
    if len(answers) != len(needs):
        pairs = aligned(answers, needs, named)
        if isinstance(pairs, str):
            return pairs
    else:
        pairs = list(zip(answers, needs))
    inv_body, ans_body, used = [], [], set(x for x in args)
    used.add(name_of(close))
    loopnames = {norm(old): (new, vs, ch) for ((old, new), vs), ch in zip(loops, d["changed"])}
    for a in invs:
        kind = "invariant" if a.startswith("invariant") else "decreases"
        old = a.split("-", 1)[1]
        if norm(old) not in loopnames:
            return f"no loop {old}"
        new, vs, ch = loopnames[norm(old)]
        fact = loop_fact(named[a], kind, new, vs, ch)
        if fact is None:
            return f"{a}: other parameters than the loop has variables"
        inv_body.append(fact)
    for a, (old, new) in pairs:
        if a not in named:
            return f"no answer {a}"
        found = parts_of(named[a], a)
        if found is None:
            return f"no body of {a}"
        unf, params, rhs = found
        if rhs.strip() in ("search rules", "search (rules)") and not unf:
            continue
        rhs = flatten(rhs, labels, params[0] if params else "c")
        own = CLAUSES.get(f"{crate}::{func.replace('.', '::')}")
        if own and re.match(r"returns(?![\w])", norm(new).split("_")[0]):
            rhs = recorded(rhs, own, params[1:])
        for b, (_, other) in pairs:
            if b != other:
                rhs = re.sub(rf"(?<![\w.'-]){re.escape(b)}(?= {re.escape(params[0])}[ )])(?: {re.escape(params[0])} [^\s()]+\.lifetimes)?", lambda m: other + (f" {params[0]}" if m[0] != b else ""), rhs) if params else rhs
        text2 = f"pub {new} : goal.{new}\n" + "".join(u + "\n" for u in unf) + f"{new}{''.join(' ' + p for p in params)} ={rhs}\n"
        ans_body.append(text2)
    others = [x for x in decls if name_of(x) is None or name_of(x) not in used]
    inv_text = "\n".join(inv_body)
    oth_inv, oth_ans = [], []
    for x in others:
        n = name_of(x)
        t = "\n".join(x).rstrip() + "\n"
        if n and re.search(rf"(?<![\w'-]){re.escape(n)}(?![\w'-])", inv_text):
            oth_inv.append((n, t))
        else:
            oth_ans.append(re.sub(r"(goal\.[\w-]+)(?: (?:invariant|decreases)-[\w-]+)+", r"\1", flatten(t, labels, "c")))
    folder = os.path.dirname(path)
    mod = f"Rattle.{crate}.proofs.{func}"
    comment = next((h for h in head if h.startswith("--")), f"-- `{func}`")
    if inv_body:
        extra = []
        for n, t in oth_inv:
            t = re.sub(r"^(abbrev |unfoldable )?(?!pub )", lambda m: (m[1] or "") + "pub ", t, count=1) if " pub " not in t.split("\n")[0] and not t.startswith("pub") else t
            extra.append(t)
        body = "\n".join(extra + inv_body)
        text3 = "\n".join(["-- What the loops of " + comment[3:].split(" meets")[0].rstrip(".") + " keep, and why they end."] + imports(head, body) + [f"use {mod}.Given as goal", ""]) + "\n" + body
        open(os.path.join(folder, "Invariants.antt"), "w", encoding="utf-8").write(text3.rstrip() + "\n")
    if ans_body:
        body = "\n".join(oth_ans + ans_body)
        if "search rules" in body and not any(".{rules}" in h or ", rules" in h or "{rules," in h for h in head):
            head.append("use Rattle.std.proofs.Common.{rules}")
        fromv = [n for n, t in oth_inv if re.search(rf"(?<![\w'-]){re.escape(n)}(?![\w'-])", body)]
        use = [f"use {mod}.Invariants.{{{', '.join(fromv)}}}"] if fromv else []
        text4 = "\n".join([comment] + imports(head, body) + use + [f"use {mod}.Goals as goal", ""]) + "\n" + body
        open(os.path.join(folder, "Answers.antt"), "w", encoding="utf-8").write(text4.rstrip() + "\n")
    elif oth_ans and any(t.strip() and not t.startswith("--") for t in oth_ans):
        return "helpers and no answer"
    os.remove(path)
    if not os.listdir(folder):
        os.rmdir(folder)
    return None


def cycle(path, crate, func, members):
    """A proof of functions that call one another: each member's goals have its name in front."""
    text = open(path, encoding="utf-8").read()
    head, decls = split(text)
    named = {name_of(x): x for x in decls if name_of(x)}
    close = next(x for x in decls if re.search(r"= close\b|\bclose ", "\n".join(x)) and "spec" in "\n".join(x))
    term = "\n".join(close)
    params = parameters_of(crate)
    invs, answers, used = [], [], {name_of(close)}
    for fn, d in members.items():
        labels, stem = Labels(d), d["stem"]
        mu = next((n for n in named if n.startswith("μ-") and norm(n[2:]) == fn.lower()), None)
        body = "\n".join(named[mu]).split("\n", 1)[1]
        rhs = body.split(" =", 1)[1]
        for k in range(len(params[fn]) - 1, -1, -1):
            rhs = re.sub(rf"\ba\.{'1[.]' * k}0(?!\d)", "l." + params[fn][k], rhs)
        invs.append(f"abbrev pub decreases-{fn} : goal.decreases-{fn}\ndecreases-{fn} l ={rhs.rstrip()}\n")
        used.add(mu)
        spec = next(m for m in re.finditer(r"([\w-]+)[.]spec\b", term) if norm(re.sub("-lts$", "", m[1])) == fn.lower())
        parts = groups(term[spec.end():])[3:]
        loops, needs = d["loops"], d["needs"]
        for (old, new), vs in loops:
            ch = d["changed"][[o for (o, _), _ in loops].index(old)]
            inv, dec = parts[0], parts[1]
            parts = parts[2:]
            for kind, n in (("invariant", inv), ("decreases", dec)):
                fact = loop_fact(named[n], kind, stem + new, vs, ch)
                if fact is None:
                    return f"{n}: other parameters than the loop has variables"
                invs.append(fact)
                used.add(n)
        if len(parts) != len(needs):
            return f"{fn}: {len(parts)} answers for {len(needs)} goals"
        for a, (old, new) in zip(parts, needs):
            m = re.match(r"\(λ[^.]*\. (.*)\)$", a, re.S)
            if m:
                if m[1].strip() != "search rules":
                    answers.append(f"pub {stem}{new} : goal.{stem}{new}\n{stem}{new} t c = {flatten(m[1], labels)}\n")
                continue
            name = a.strip("()").split()[0]
            if name not in named:
                return f"{fn}: no answer {a}"
            used.add(name)
            unf, ps, rhs = parts_of(named[name], name)
            if rhs.strip() == "search rules" and not unf:
                continue
            rhs = flatten(rhs, labels, ps[1] if len(ps) > 1 else "c")
            own = next((v for f, v in CLAUSES.items() if f.startswith(crate + "::") and f.endswith("::" + fn)), None)
            if own and norm(new).startswith("returns"):
                rhs = recorded(rhs, own, ps[2:])
            answers.append(f"pub {stem}{new} : goal.{stem}{new}\n" + "".join(u + "\n" for u in unf) + f"{stem}{new}{''.join(' ' + q for q in ps)} ={rhs.rstrip()}\n")
    others = []
    for x in decls:
        n, t = name_of(x), "\n".join(x)
        if n in used or n is None and not t.startswith("--"):
            continue
        if n and (re.search(r"-kinds\.ps\b|-lts\.Claims\b", t) or n.startswith("μ-")):
            continue
        others.append((n, t.rstrip() + "\n"))
    inv_text = "\n".join(invs)
    ours = [t for n, t in others if n and re.search(rf"(?<![\w'-]){re.escape(n)}(?![\w'-])", inv_text)]
    rest = [flatten(t, Labels(next(iter(members.values())))) for n, t in others if t not in ours]
    folder, mod = os.path.dirname(path), f"Rattle.{crate}.proofs.{func}"
    comment = [h for h in head if h.startswith("--")]
    body = "\n".join([re.sub(r"^abbrev (?!pub)", "abbrev pub ", t) for t in ours] + invs)
    open(os.path.join(folder, "Invariants.antt"), "w", encoding="utf-8").write(
        "\n".join(["-- What the loops of this cycle of calls keep, and why loops and calls end."] + imports(head, body) + [f"use {mod}.Given as goal", ""]) + "\n" + body.rstrip() + "\n")
    # The fact that the measure is t stood before the requires.
    body = re.sub(r"(?<![\w'-])c\.requires\.0, ", "", "\n".join(rest + answers)).replace("omega (arith, c.requires.0)", "omega arith")
    body = re.sub(r"(?<![\w'-])c\.requires\.1(?![\d])", "c.requires", body)
    if "search rules" in body and not any(".{rules}" in h or ", rules" in h or "{rules," in h for h in head):
        head.append("use Rattle.std.proofs.Common.{rules}")
    open(os.path.join(folder, "Answers.antt"), "w", encoding="utf-8").write(
        "\n".join(comment + imports(head, body) + [f"use {mod}.Goals as goal", ""]) + "\n" + body.rstrip() + "\n")
    os.remove(path)
    return None


CLAUSES = clauses_of_sources()


def main():
    crate, names = sys.argv[1:3]
    data = json.load(open(names, encoding="utf-8"))
    base = os.path.join("crates", crate, "proofs")
    for folder, _, files in sorted(os.walk(base)):
        if "Proof.antt" not in files:
            continue
        rel = os.path.relpath(folder, base)
        func = rel.replace(os.sep, ".")
        key = f"Rattle-{crate}-proofs.{func}.Lts"
        members = {k.rsplit(".Lts-", 1)[1]: v for k, v in data.items() if k.startswith(f"Rattle-{crate}-proofs.{func}.Lts-")}
        if members:
            try:
                said = cycle(os.path.join(folder, "Proof.antt"), crate, func, members)
            except Exception as e:
                said = f"{type(e).__name__}: {e}"
            if said:
                print(f"left: {rel}: {said}")
            continue
        if key not in data:
            print(f"left: {rel}: no names")
            continue
        try:
            said = turn(os.path.join(folder, "Proof.antt"), crate, func, data[key])
        except Exception as e:
            said = f"{type(e).__name__}: {e}"
        if said:
            print(f"left: {rel}: {said}")


if __name__ == "__main__":
    main()
