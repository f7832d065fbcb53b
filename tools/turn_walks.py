#!/usr/bin/env python3
"""Turns each proofs/F/Proof.antt that closes a walk by `tie.close (tie.spec ..)` into Invariants.antt and Answers.antt.

usage: turn_walks.py NAMES.json REPOSITORY [CRATE..]

NAMES.json is what `rt check --generated FOLDER --old-names` writes: of each function the old and the new names of its goals, steps and loops.
Keys of a crate that holds the others as modules are read too (all-proofs.CRATE.PATH). Files of another form are left, and named.
"""
import json, os, re, sys

TOKEN = r"[^\s(){}\[\],.:;λ∀→×≡]+"

def norm(s):
    return s.replace("_", "-")

def blocks(text):
    """The top-level blocks of a file: comments before a declaration belong to it; signature and clauses of one name are one block, as is a
    module with what stands in it."""
    out, cur, pend, gap = [], None, [], False
    for l in text.split("\n"):
        if l == "":
            gap = True
            if cur is None and pend: out.append(pend); pend = []
            continue
        if l[0] in " \t":
            if cur is None: cur = pend; pend = []
            if gap: cur.append("")
            cur.append(l)
        elif l.startswith("--"):
            if cur is not None: out.append(cur); cur = None
            pend.append(l)
        else:
            name = decl_name(l)
            if cur is not None and not gap and name is not None and (name == "unfolding" or decl_name_of(cur) == name):
                cur.append(l)
            else:
                if cur is not None: out.append(cur)
                cur = pend + [l]; pend = []
        gap = False
    if cur is not None: out.append(cur)
    if pend: out.append(pend)
    return ["\n".join(b) for b in out]

def word(label):
    """A clause's name in a record: words of antt's own are written escaped."""
    return "«" + label + "»" if label in ("record", "data", "open", "ruleset", "module", "use") else label

def decl_name(l):
    m = re.match(r"(?:abbrev |unfoldable |pub )*([^\s:(){}]+)", l)
    if not m: return None
    w = m.group(1)
    if w in ("use", "module", "record", "data", "infix", "infixl", "infixr", "unfolding", "mod"): return w if w == "unfolding" else None
    return w

def decl_name_of(block):
    for l in block:
        if l and l[0] not in " -":
            n = decl_name(l)
            if n == "unfolding": continue
            return n
    return None

def top_args(text):
    """Splits an application's arguments at depth 0."""
    out, depth, cur = [], 0, ""
    for ch in text:
        if ch in "([{": depth += 1
        if ch in ")]}": depth -= 1
        if ch.isspace() and depth == 0:
            if cur: out.append(cur); cur = ""
        else:
            cur += ch
    if cur: out.append(cur)
    return out

def unparen(t):
    t = t.strip()
    while t.startswith("(") and t.endswith(")"):
        depth = 0
        for i, ch in enumerate(t):
            if ch == "(": depth += 1
            if ch == ")":
                depth -= 1
                if depth == 0 and i < len(t) - 1: return t
        t = t[1:-1].strip()
    return t

def sub_tokens(text, table, before=r"(?<![^\s(){}\[\],;])"):
    """Replaces whole names that do not stand after a dot."""
    if not table: return text
    alt = "|".join(re.escape(k) for k in sorted(table, key=len, reverse=True))
    return re.sub(before + "(" + alt + r")(?![^\s(){}\[\],;.])", lambda m: table[m.group(1)], text)

def labels(text, table):
    def one(m):
        w = m.group(1)
        return "." + table.get(norm(w), w)
    return re.sub(r"(?<=[^\s(,])\.([A-Za-z][A-Za-z0-9_'-]*)(?![^\s(){}\[\],;.])", one, text)

def flatten(text):
    return re.sub(r"(\.before)+(?=\.(?!before(?![A-Za-z0-9_'-]))[A-Za-z0-9])", "", text)

def places(text, table, inv_names):
    def one(m):
        w = m.group(1)
        new = table.get(norm(w))
        return "goal." + (new or w)
    text = re.sub(r"tie\.([A-Za-z][A-Za-z0-9_-]*)", one, text)
    for _ in range(8):
        text = re.sub(r"(goal\.[A-Za-z0-9_-]+)((?: (?:" + "|".join(map(re.escape, inv_names)) + r"))+)(?=[\s)]|$)", r"\1", text) if inv_names else text
    return text

def index_of(steps, n, single=False):
    """Which of n things that stand in pairs, the last in a pair's second, the projections lead to, and what is left of them."""
    i = 0
    if n == 1 and steps and steps[0] == "0" and single: return 0, steps[1:]
    while steps and i < n - 1:
        if steps[0] == "0": return i, steps[1:]
        if steps[0] != "1": return None, steps
        i += 1; steps = steps[1:]
    if i == n - 1 and (n == 1 or i > 0): return i, steps
    return None, steps

def named(entry, k):
    """The place that a `use` line can name: of places that are Rattle's own the one before."""
    while True:
        n = entry["places_by_name"][k]
        p = entry["places"][k]
        m = re.fullmatch(r"(In-.*?)-\d+", n)
        if m and (entry["arms"][k] or p[2][1] == "match"):
            for j, n2 in enumerate(entry["places_by_name"]):
                if n2 == m.group(1):
                    i = j
                    while i is not None and i != k:
                        up = entry["places"][i][1]
                        i = next((q for q, x in enumerate(entry["places"]) if x[0] == up), None) if up else None
                    if i == k: return j, m.group(1)
            return k, m.group(1)
        old, new = p[2]
        stem = re.sub(r"\d+$", "", norm(old or ""))
        own = old and p[3] is None and re.search(r"-\d+$", new) and not re.match(r"(if|loop|match)", stem) and norm(new).startswith(stem)
        if not own or not p[1]: return k, n
        up = next((j for j, q in enumerate(entry["places"]) if q[0] == p[1]), None)
        if up is None: return k, n
        k = up

def nth(steps, n):
    """Which of n things the projections lead to, where the last stands in front of nothing, and what is left of them."""
    k = 0
    while k < len(steps) and steps[k] == "1": k += 1
    if k < n and k < len(steps) and steps[k] == "0": return k, steps[k + 1:]
    return None, steps

class Places:
    def __init__(self, entry):
        self.entry = entry
        self.by = {}
        for k, p in enumerate(entry["places"]):
            self.by[norm(p[0])] = k
    def chain(self, place):
        out, k = [], self.by.get(norm(place))
        while k is not None:
            out.append(k)
            up = self.entry["places"][k][1]
            k = self.by.get(norm(up)) if up else None
        return out

def stops(text, P, place, goal):
    """In an answer: a place before the goal's that is passed on, by its name; where only its fields are read, the goal's own record."""
    e = P.entry
    env = {"c": P.by[norm(place)]}
    def up(k, n):
        for _ in range(n):
            parent = e["places"][k][1]
            j = P.by.get(norm(parent)) if parent else None
            if j is None: return k
            k = j
        return k
    name = lambda k: named(e, k)[1]
    lets = []
    for m in re.finditer(r"let ([A-Za-z0-9_]+) = ([A-Za-z0-9_]+)((?:\.before)+) in", text):
        if m.group(2) in env and m.group(1) != "c":
            k = up(env[m.group(2)], m.group(3).count("before"))
            if k is not None: env[m.group(1)] = k; lets.append(m.group(1))
    def wanted(v):
        """The place that the lemmas ask that a variable is handed to."""
        ks = {named(e, HELPERS[h])[0] for h in re.findall(r"(?<![A-Za-z0-9_'.-])([A-Za-z0-9_'₀-₉-]+) " + re.escape(v) + r"(?![A-Za-z0-9_'.-])", text) if h in HELPERS}
        return ks.pop() if len(ks) == 1 else None
    def bare(v, s):
        return re.search(r"(?<![A-Za-z0-9_'.-])" + re.escape(v) + r"(?![A-Za-z0-9_'-]|\.)", s) or re.search(r"(?<![A-Za-z0-9_'.-])" + re.escape(v) + r"(\.before)+(?![A-Za-z0-9_'.-])", s)
    def let(m):
        v, w = m.group(1), m.group(2)
        if v not in env or w not in env: return m.group(0)
        rest = text[m.end():]
        used = re.sub(r"let [A-Za-z0-9_]+ = [A-Za-z0-9_]+((?:\.before)+) in", "", rest)
        if re.search(r"(?<![A-Za-z0-9_'.-])" + re.escape(v) + r"(?![A-Za-z0-9_'.-])", used):
            k = wanted(v)
            if k is not None and named(e, P.by[norm(place)])[0] != k: return f"let {v} = (goal.at.{goal} c).{name(k)} in"
            return f"let {v} = (goal.at.{goal} c).{name(env[v])} in" if env[v] != P.by[norm(place)] else f"let {v} = c in"
        return f"let {v} = c in"
    out = re.sub(r"let ([A-Za-z0-9_]+) = ([A-Za-z0-9_]+)((?:\.before)+) in", let, text)
    k0 = P.by[norm(place)]
    if named(e, k0)[0] != k0 and " =" in out:
        cut = out.index(" =")
        def bare_c(m):
            k = HELPERS.get(m.group(1))
            if k is None or named(e, k)[0] != named(e, k0)[0]: return m.group(0)
            return f"{m.group(1)} (goal.at.{goal} c).{name(k0)}"
        out = out[:cut] + re.sub(r"(?<![A-Za-z0-9_'.-])([A-Za-z0-9_'₀-₉-]+) c(?=[ ),]|$)", bare_c, out[cut:])
    def end(m):
        w = m.group(1)
        if w not in env: return m.group(0)
        k = up(env[w], m.group(2).count("before"))
        return m.group(0) if k is None else f"(goal.at.{goal} c).{name(k)}"
    out = re.sub(r"(?<![A-Za-z0-9_'.-])([A-Za-z0-9_]+)((?:\.before)+)(?![A-Za-z0-9_'-]|\.[A-Za-z0-9_])", end, out)
    def asks(m):
        k = HELPERS.get(m.group(1))
        return m.group(0) if k is None else f"{m.group(1)} (goal.at.{goal} c).{name(k)}"
    return re.sub(r"(?<![A-Za-z0-9_'.-])([A-Za-z0-9_'₀-₉-]+) \(goal\.at\." + re.escape(goal) + r" c\)\.[A-Za-z0-9_-]+", asks, out)

def helpers(text):
    """In a lemma over a place: names for earlier places of which only fields are read are the place itself."""
    for m in list(re.finditer(r"(?m)^[ ]*abbrev ([A-Za-z0-9_]+) : tie\.[^\n]*\n[ ]*\1 = (c)(?:\.before)+[ ]*\n", text)):
        v = m.group(1)
        rest = text.replace(m.group(0), "")
        if not re.search(r"(?<![A-Za-z0-9_'.-])" + v + r"(?![A-Za-z0-9_'.-])", rest):
            text = re.sub(r"(?<![A-Za-z0-9_'.-])" + v + r"(?=\.[A-Za-z])", "c", rest)
            GONE.add(v)
    def let(m):
        v = m.group(1)
        rest = text[m.end():]
        used = re.sub(r"let [A-Za-z0-9_]+ = [A-Za-z0-9_]+((?:\.before)+) in", "", rest)
        if re.search(r"(?<![A-Za-z0-9_'.-])" + re.escape(v) + r"(?![A-Za-z0-9_'.-])", used): return m.group(0)
        if re.search(r"(?<![A-Za-z0-9_'.-])" + re.escape(v) + r"(\.before)+(?![A-Za-z0-9_'-]|\.[A-Za-z0-9_])", rest): return m.group(0)
        return f"let {v} = c in"
    text = re.sub(r"let ([A-Za-z0-9_]+) = c((?:\.before)+) in", let, text)
    return text

GONE = set()
HELPERS = {}

def depth(P, k):
    n = 0
    while True:
        parent = P.entry["places"][k][1]
        k = P.by.get(norm(parent)) if parent else None
        if k is None: return n
        n += 1

def passed(text, P, place):
    """In a lemma over a place: an earlier place that is passed on, as the record of that place."""
    e = P.entry
    here, _ = named(e, P.by[norm(place)])
    env = {"c": P.by[norm(place)]}
    def up(k, n):
        for _ in range(n):
            parent = e["places"][k][1]
            j = P.by.get(norm(parent)) if parent else None
            if j is None: return k
            k = j
        return k
    def at(k):
        k2, n = named(e, k)
        steps = depth(P, here) - depth(P, k2)
        if steps == 0: return "c"
        k3, levels, groups = here, 0, set()
        while k3 is not None and k3 != k2:
            if e["arms"][k3]: levels += 1; groups.add(e["arms"][k3][0])
            parent = e["places"][k3][1]
            k3 = P.by.get(norm(parent)) if parent else None
        raw = "⟪c⟫" + "⟪b⟫" * (steps - levels + len(groups) + (1 if e["typed"][here] else 0))
        if not e["typed"][k2]: return raw
        more = " ".join([f"goal.the-invariant-{l[0][1]} goal.the-decreases-{l[0][1]}" for l in e["loops"]] + (["tie.handed_clauses"] if any(e["clauses"]) or e.get("pre") or e["asked"] else []))
        return f"(view.up-{n} tie.the-claims reads.Pre reads.Post {more}{' ' if more else ''}{raw})"
    for m in re.finditer(r"let ([A-Za-z0-9_]+) = ([A-Za-z0-9_]+)((?:\.before)+) in", text):
        if m.group(2) in env and m.group(1) != "c":
            k = up(env[m.group(2)], m.group(3).count("before"))
            if k is not None: env[m.group(1)] = k
    def let(m):
        v, w = m.group(1), m.group(2)
        if v not in env or w not in env or v == "c": return m.group(0)
        used = re.sub(r"let [A-Za-z0-9_]+ = [A-Za-z0-9_]+((?:\.before)+) in", "", text[m.end():])
        if not re.search(r"(?<![A-Za-z0-9_'.-])" + re.escape(v) + r"(?![A-Za-z0-9_'.-])", used): return f"let {v} = ⟪c⟫ in"
        return f"let {v} = {at(env[v])} in"
    text = re.sub(r"let ([A-Za-z0-9_]+) = ([A-Za-z0-9_]+)((?:\.before)+) in", let, text)
    def end(m):
        w = m.group(1)
        if w not in env: return m.group(0)
        k = up(env[w], m.group(2).count("before"))
        return m.group(0) if k is None else at(k)
    text = re.sub(r"(?<![A-Za-z0-9_'.-])([A-Za-z0-9_]+)((?:\.before)+)(?![A-Za-z0-9_'-]|\.[A-Za-z0-9_])", end, text)
    return text.replace("⟪c⟫", "c").replace("⟪b⟫", ".before")

def rewrite(text, P, place, goal=None):
    """What a declaration at a place cites, in today's names."""
    e = P.entry
    text = re.sub(r"(\.(?:if\d+|loop\d*-test|loop-test\d*))\.taken", r"\1.true", text)
    text = re.sub(r"(\.(?:if\d+|loop\d*-test|loop-test\d*))\.left", r"\1.false", text)
    text = re.sub(r"\.pre(?![A-Za-z0-9_'-])", ".requires", text)
    text = text.replace(".is_Signed", ".is_signed").replace(".well-formed", ".well_formed")
    text = re.sub(r"(\.loop\d*)\.inv(?![A-Za-z0-9_'-])", r"\1.invariant", text)
    text = re.sub(r"\.(ranges|args)\.([a-z0-9]+(?:-[a-z0-9]+)+)", lambda m: f".{m.group(1)}.{m.group(2).replace('-', '_')}", text)
    if goal is None: text = helpers(text)
    if "w16" not in text: text = re.sub(r"to_z-of_z (?=\()", "to_z-of_z {w = w32} ", text)
    ks = P.chain(place) if place else range(len(e["places"]))
    labels_, callee, clauses, maps, arms = {}, {}, {}, {}, []
    for l in e["loops"]: labels_[norm(l[0][0])] = l[0][1]
    for k in ks:
        p = e["places"][k]
        old, new = p[2]
        if not old: continue
        labels_.setdefault(norm(old), new)
        if p[3]: callee[new] = e["params"].get(p[3])
        if e["clauses"][k]: clauses[new] = e["clauses"][k]["fields"]
        if p[4]: maps[new] = dict((x, y) for x, y in p[4])
        if e["arms"][k]: arms.append(e["arms"][k])
    # arms: steps of a match that are one step now
    for m in reversed(list(re.finditer(r"let ([A-Za-z0-9_]+) = ([A-Za-z0-9_.-]*?)\.([A-Za-z0-9_-]+)\.given\.0 in\s*", text))):
        v, front, step = m.group(1), m.group(2), m.group(3)
        for name, n, fields in arms:
            got = [(f, path[2:]) for f, s, path in fields if norm(s) == norm(step) and path[:2] == ["given", "0"] and len(path) > 2]
            if not got: continue
            rest = text[m.end():]
            for f, path in sorted(got, key=lambda x: -len(x[1])):
                rest = re.sub(r"(?<![A-Za-z0-9_'.-])" + v + "".join(r"\." + x for x in path) + r"(?![A-Za-z0-9_'-])", f"{front}.{name}.{f}", rest)
            if not re.search(r"(?<![A-Za-z0-9_'.-])" + v + r"(?![A-Za-z0-9_'-])", rest):
                text = text[:m.start()] + rest
            break
    for name, n, fields in arms:
        for field, step, path in sorted(fields, key=lambda f: -len(f[2])):
            if path:
                pat = r"\." + re.sub(r"[-_]", "[-_]", re.escape(step).replace("\\-", "-")) + "".join(r"\." + re.escape(x) for x in path) + r"(?![A-Za-z0-9_'-])"
                text = re.sub(pat, f".{name}.{field}", text)
    aliases = {}
    def one(m):
        path = m.group(0)
        parts = path.split(".")
        if parts[0] in ("Rattle", "mathlib", "lib", "borrow", "native", "mir", "Prim", "denote", "base", "seplogic"): return path
        if parts[0] in aliases and len(parts) > 1:
            n = aliases[parts[0]]
            rest = parts[1:]
            if rest[0] == "ensures" and n in clauses:
                k, left = index_of(rest[1:], len(clauses[n]))
                if k is not None: return ".".join([parts[0], "ensures", clauses[n][k]] + left)
            if rest[0] in ("new", "last") and callee.get(n):
                k, left = nth(rest[1:], len(callee[n]))
                if k is not None: return ".".join([parts[0], "new", callee[n][k]] + left)
            if rest[0] == "auto" and callee.get(n) and re.fullmatch(r"(1\.)*0(\..*)?", ".".join(rest[1:])):
                steps = rest[1:]; k = 0
                while steps[0] == "1": k += 1; steps = steps[1:]
                if k < len(callee[n]): return ".".join([parts[0], "auto", callee[n][k]] + steps[1:])
        out, i = [parts[0]], 1
        while i < len(parts):
            w = parts[i]
            plain = w[:-4] if w.endswith("_lem") else w
            n = labels_.get(norm(plain)) or labels_.get(norm(plain[:1].lower() + plain[1:]))
            nxt = parts[i + 1] if i + 1 < len(parts) else None
            if n is not None and re.fullmatch(re.escape(norm(plain)) + r"(-in-loop-.*|-in-.*|-then-.*|-else-.*)?-\d+", norm(n)) and nxt not in ("given", "result", "ensures", "new", "type-inv", "type_inv", "auto"):
                n = None
            if n is None or (w in ("invariant", "initial")):
                out.append(w); i += 1; continue
            out.append(n); i += 1
            if nxt == "ensures" and n in clauses:
                k, left = index_of(parts[i + 1:], len(clauses[n]))
                if k is not None:
                    out += ["ensures", clauses[n][k]] + left; i = len(parts)
            elif nxt in ("new", "last") and callee.get(n):
                k, left = nth(parts[i + 1:], len(callee[n]))
                if k is not None:
                    out += ["new", callee[n][k]] + left; i = len(parts)
            elif nxt == "auto" and callee.get(n) and re.fullmatch(r"(1\.)*0(\..*)?", ".".join(parts[i + 1:])):
                steps = parts[i + 1:]; k = 0
                while steps[0] == "1": k += 1; steps = steps[1:]
                if k < len(callee[n]): out += ["auto", callee[n][k]] + steps[1:]; i = len(parts)
            elif nxt in maps.get(n, {}):
                out.append(maps[n][nxt] if nxt not in ("fact",) else maps[n][nxt]); i += 1
        return ".".join(out)
    paths = r"(?<![A-Za-z0-9_'.-])[A-Za-z_][A-Za-z0-9_'₀-₉-]*(?:\.[A-Za-z0-9_'-]+)+"
    text = re.sub(paths, one, text)
    text = re.sub(r"(?<=\))(?:\.[A-Za-z0-9_'-]+)+", one, text)
    # names for all that a call ensures or that is required
    for m in reversed(list(re.finditer(r"let ([A-Za-z0-9_]+) = ((?:\([^()]*(?:\([^()]*\))?[^()]*\)|[A-Za-z0-9_]+)(?:\.[A-Za-z0-9_'-]+)*?)\.(ensures|requires)((?:\.1)*) in", text))):
        v, last, kind, ones = m.group(1), m.group(2).split(".")[-1], m.group(3), m.group(4).count("1")
        f = clauses.get(aliases.get(m.group(2), last)) if kind == "ensures" else (P.entry.get("pre") or {}).get("fields")
        if not f or ones >= len(f): continue
        f = f[ones:]
        if len(f) == 1:
            text = text[:m.start()] + f"let {v} = {m.group(2)}.{kind}.{word(f[0])} in" + text[m.end():]
            continue
        def named_clause(x):
            steps = x.group(1).split(".")[1:]
            k, left = index_of(steps, len(f))
            return x.group(0) if k is None else ".".join([v, word(f[k])] + left)
        rest = re.sub(r"(?<![A-Za-z0-9_'.-])" + v + r"((?:\.[01])+)", named_clause, text[m.end():])
        text = text[:m.start()] + f"let {v} = {m.group(2)}.{kind} in" + rest
    for m in re.finditer(r"let ([A-Za-z0-9_]+) = ([A-Za-z0-9_]+(?:\.[A-Za-z0-9_'-]+)+) in", text):
        last = m.group(2).split(".")[-1]
        if last in clauses or last in callee: aliases[m.group(1)] = last
    if aliases: text = re.sub(paths, one, text)
    if goal is not None: text = stops(text, P, place, goal)
    elif place and re.search(r"\(c : tie\.", text): text = passed(text, P, place)
    text = re.sub(r"not-(?:true|false) _ \(([^()\s]+)\.(true|false)-raw\)", r"\1.\2", text)
    text = re.sub(r"not-(?:true|false) _ ([^()\s]+)\.(true|false)-raw", r"\1.\2", text)
    pre = e.get("pre")
    if pre and len(pre["fields"]) == 1:
        text = re.sub(r"\.requires(?![A-Za-z0-9_'-])", ".requires." + pre["fields"][0], text)
    elif pre and len(pre["fields"]) > 1:
        f = pre["fields"]
        def req(m):
            steps = m.group(1).split(".")[1:]
            k, left = index_of(steps, len(f))
            return ".requires" + m.group(1) if k is None else ".".join([".requires." + word(f[k])] + left)
        text = re.sub(r"\.requires((?:\.[01])+)", req, text)
    return text

def record_of(body, labels_):
    """An answer that is a tuple at its end, as a record of the clauses."""
    n = len(labels_)
    # the last expression after the lets at depth 0
    depth, last = 0, 0
    for m in re.finditer(r"[(\[{]|[)\]}]|(?<=\s)in(?=\s)", body):
        w = m.group(0)
        if w in "([{": depth += 1
        elif w in ")]}": depth -= 1
        elif depth == 0: last = m.end()
    head, expr = body[:last], body[last:].strip()
    if n == 1:
        return head + (" " if head and not head.endswith(("\n", " ")) else "") + "record { " + word(labels_[0]) + " = " + expr + " }"
    if expr.startswith("(") and unparen(expr) != expr:
        inner = expr[1:-1].strip()
        if unparen(expr) == unparen(inner) or inner.startswith("("): inner = inner
        parts, cur, d = [], "", 0
        for ch in inner:
            if ch in "([{": d += 1
            if ch in ")]}": d -= 1
            if ch == "," and d == 0: parts.append(cur.strip()); cur = ""
            else: cur += ch
        if cur.strip(): parts.append(cur.strip())
        while len(parts) < n and parts and parts[-1].startswith("(") and parts[-1].endswith(")") and unparen(parts[-1]) != parts[-1]:
            tail = parts.pop()[1:-1].strip()
            sub, cur, d = [], "", 0
            for ch in tail:
                if ch in "([{": d += 1
                if ch in ")]}": d -= 1
                if ch == "," and d == 0: sub.append(cur.strip()); cur = ""
                else: cur += ch
            if cur.strip(): sub.append(cur.strip())
            if len(sub) < 2: parts.append("(" + tail + ")"); break
            parts += sub
        if len(parts) > n:
            parts = parts[: n - 1] + ["(" + ", ".join(parts[n - 1:]) + ")"]
        if len(parts) == n:
            return head + (" " if head and not head.endswith(("\n", " ")) else "") + "record { " + "; ".join(f"{word(a)} = {b}" for a, b in zip(labels_, parts)) + " }"
    m = re.match(r"((?:rw|simp|subst) .*?)\((?=[^()]*[(,])", expr, re.S)
    if expr.startswith(("rw ", "simp ")) and expr.endswith(")"):
        d, k = 0, len(expr) - 1
        while k >= 0:
            if expr[k] in ")]}": d += 1
            if expr[k] in "([{": d -= 1
            if d == 0: break
            k -= 1
        inner = record_of(expr[k:], labels_)
        if inner.startswith("record {"): return head + (" " if head and not head.endswith(("\n", " ")) else "") + expr[:k] + "(" + inner + ")"
    proj = lambda i: ".0" if i == 0 and n > 1 else ".1" * i + (".0" if i < n - 1 else "")
    return head + (" " if head else "") + f"let all = {expr} in record {{ " + "; ".join(f"{word(a)} = all{proj(i)}" for i, a in enumerate(labels_)) + " }"

def without(text, v):
    """Where a name for the place itself is gone: `(v X).f` is `X.f`."""
    pat = re.compile(r"\(" + re.escape(v) + r" ")
    at = 0
    while True:
        m = pat.search(text, at)
        if not m: return text
        d, k = 1, m.end()
        while d and k < len(text):
            if text[k] in "([{": d += 1
            if text[k] in ")]}": d -= 1
            k += 1
        arg = text[m.end():k - 1].strip()
        if text[k:k + 1] == "." and len(top_args(arg)) == 1:
            text = text[:m.start()] + arg + text[k:]
        at = m.start() + 1

def turn(path, entry, crate, fn):
    with open(path) as f: text = f.read()
    bs = blocks(text)
    spec = None
    for i, b in enumerate(bs):
        if re.search(r"tie\.close\s*\(\s*tie\.spec", b.replace("\n", " ")):
            spec = i
    if spec is None:
        return "another form"
    body = bs[spec].replace("\n", " ")
    k = body.index("tie.spec") + len("tie.spec")
    rest, depth, end = body[k:], 0, None
    for i, ch in enumerate(rest):
        if ch == "(": depth += 1
        if ch == ")":
            if depth == 0: end = i; break
            depth -= 1
    if end is None: return "the spec does not end"
    args = top_args(rest[:end])
    loops = entry["loops"]; needs = entry["needs"]
    n_inv = 2 * len(loops)
    fn_path = fn.replace("/", ".")
    P = Places(entry)
    ptable = {norm(p[0]): named(entry, k)[1] for k, p in enumerate(entry["places"])}
    note = []
    defs = {}
    for i, b in enumerate(bs):
        n = decl_name_of([l for l in b.split("\n") if not l.startswith("--")])
        if n: defs.setdefault(n, i)
    head = args[:n_inv]
    invariants, done = [], set()
    count = {"invariant": 0, "decreases": 0}
    inv_names = list(dict.fromkeys(head))
    for n in head:
        if n not in defs: return f"the invariant {n} is no declaration"
    for n in head:
        b = bs[defs[n]]
        kind = "invariant" if re.search(r"tie\.(invariant|InvT)", b) else "decreases"
        k = count[kind]; count[kind] += 1
        (old, new), vs = loops[k]
        changed = entry["changed"][k]
        done.add(defs[n])
        ls = b.split("\n")
        comments = [l for l in ls if l.startswith("--")]
        code = "\n".join(l for l in ls if not l.startswith("--"))
        code = code[code.index("\n") + 1:]
        m = re.search(r"^" + re.escape(n) + r"((?:\s+[^\s=]+)*)\s*=\s*", code, re.M)
        if not m: return f"the definition of {n}"
        names = m.group(1).split()
        body_i = code[m.end():]
        want = [("l.initial." if c else "l.") + v for v, c in zip(vs, changed)] + ["l." + v for v, c in zip(vs, changed) if c]
        if len(want) != len(names): return f"{n} has {len(names)} names for {len(want)} variables"
        t = {a: w for a, w in zip(names, want) if a != "_"}
        goal = f"{kind}-{new}"
        body_i = sub_tokens(body_i, t)
        body_i = re.sub(r"\(to_z w\d+ (l\.[A-Za-z0-9_.]+)\)", r"\1", body_i)
        body_i = re.sub(r"to_z w\d+ (l\.[A-Za-z0-9_.]+)", r"\1", body_i)
        sep = "\n    " if "\n" in body_i else " "
        invariants.append("\n".join(comments + [f"abbrev pub {goal} : goal.{goal}", f"{goal} l ={sep}{body_i}"]))
    # what the invariants name of the file's own
    front, seen = [], set()
    def need_of(body):
        for n, i in defs.items():
            if n not in seen and i not in done and i != spec and "tie." not in bs[i] and re.search(r"(?<![A-Za-z0-9_'.-])" + re.escape(n) + r"(?![A-Za-z0-9_'-])", body):
                seen.add(n); need_of(bs[i]); front.append(i)
    for b in invariants: need_of(b)
    front = list(dict.fromkeys(front))
    done |= set(front)
    fronts = [re.sub(r"(?m)^abbrev (?!pub )", "abbrev pub ", re.sub(r"(?m)^(?=[A-Za-z0-9_'-]+ :)(?!pub |abbrev )", "pub ", bs[i])) for i in front]
    invariants = fronts + invariants
    # which goal each argument answers
    by_old = {norm(o): k for k, (o, n) in enumerate(needs)}
    rest_args = [unparen(a) for a in args[n_inv:]]
    old_of = {}
    for n, i in defs.items():
        m = re.search(r"(?m)^(?:pub )?" + re.escape(n) + r" : tie\.Need-([A-Za-z0-9_+-]+)", bs[i])
        if m: old_of[n] = m.group(1)
    plan = {}
    if len(rest_args) == len(needs):
        for k, a in enumerate(rest_args): plan.setdefault(a, []).append(k)
    else:
        anchors = []
        for j, a in enumerate(rest_args):
            if a in old_of:
                o = norm(old_of[a])
                k = by_old.get(o)
                if k is None and o.startswith("overflow-"): k = by_old.get(o[9:])
                anchors.append((j, k, a))
        known = {j: k for j, k, a in anchors}
        for j, a in enumerate(rest_args):
            if re.fullmatch(r"λ c( κs)?\. search rules", a): continue
            if j in known:
                if known[j] is None: note.append(f"{a} ({old_of[a]}) is asked no more")
                else: plan.setdefault(a, []).append(known[j])
                continue
            before = max([k for jj, k in known.items() if jj < j and k is not None], default=-1)
            after = min([k for jj, k in known.items() if jj > j and k is not None], default=len(needs))
            between = [k for k in range(before + 1, after)]
            jb = max([jj for jj in known if jj < j], default=-1); ja = min([jj for jj in known if jj > j], default=len(rest_args))
            if len(between) == ja - jb - 1: plan.setdefault(a, []).append(between[j - jb - 1])
            elif len(between) == 1: plan.setdefault(a, []).append(between[0])
            else: note.append(f"which goal: {a[:80]} (one of {', '.join(needs[k][1] for k in between)})")
    HELPERS.clear()
    for b in bs:
        m = re.search(r"\(c : tie\.([A-Za-z0-9_-]+)", b)
        if m and norm(m.group(1)) in P.by:
            for x in re.findall(r"(?m)^[ ]*(?:abbrev )?([A-Za-z0-9_'₀-₉-]+) :", b): HELPERS[x] = P.by[norm(m.group(1))]
    rename, extra = {}, []
    for a, ks in plan.items():
        if re.fullmatch(r"λ c( κs)?\. search rules", a): continue
        if a in old_of and len(ks) == 1:
            rename[a] = ks[0]
        else:
            for k in ks:
                new = needs[k][1]
                m = re.fullmatch(r"λ (c|_)( κs)?\. (.*)", a, re.S)
                if m: body_x = m.group(3); var = m.group(1)
                else: body_x, var = f"{a} c" if re.fullmatch(r"[^\s]+", a) else f"({a}) c", "c"
                extra.append((k, f"pub {new} : goal.{new}\n{new} {var} = {body_x}"))
    out = []
    refs = {a: needs[k][1] for a, k in rename.items()}
    dropped = {n for n in old_of if n not in rename}
    for i, b in enumerate(bs):
        if i == spec or i in done: continue
        n = decl_name_of([l for l in b.split("\n") if not l.startswith("--")])
        place = None
        if n in rename and defs[n] == i:
            k = rename[n]; place = entry["asked_at"][k][0]
            new = needs[k][1]
            b = sub_tokens(b, refs)
            b = re.sub(r"(?m)^(?:pub )?" + re.escape(new) + r" : tie\.Need-[^\n]*$", f"pub {new} : goal.{new}", b)
            b = re.sub(r"(?m)^(" + re.escape(new) + r"(?: [^\s=]+)*?) κs =", r"\1 =", b)
            labels_ = entry["asked"].get(needs[k][0])
            if labels_:
                m = re.search(r"(?m)^" + re.escape(new) + r"((?: [^\s=]+)*) =", b)
                if m: b = b[:m.end()] + " " + record_of(b[m.end():].strip("\n"), labels_).lstrip(" ")
        elif n in old_of and n not in rename and defs[n] == i:
            if not any(re.search(r"(?<![\w.-])" + re.escape(n) + r"(?![\w-])", x) for j, x in enumerate(bs) if j not in (i, spec)):
                note.append(f"{n} goes"); continue
            note.append(f"{n} stays, and is cited"); b = sub_tokens(b, refs)
        else:
            b = sub_tokens(b, refs)
            m = re.search(r"tie\.((?:After|In|At|Then|Else|Start|Joined)[A-Za-z0-9_-]*)", b)
            if m: place = m.group(1)
        b = rewrite(b, P, place if place and norm(place) in P.by else None, needs[rename[n]][1] if n in rename and defs[n] == i else None)
        out.append(b)
    for k, b in extra:
        place = entry["asked_at"][k][0]
        labels_ = entry["asked"].get(needs[k][0])
        cut = b.index(" =") + 2
        b = b[:cut] + sub_tokens(b[cut:], refs)
        if labels_:
            new = needs[k][1]
            m = re.search(r"(?m)^" + re.escape(new) + r"((?: [^\s=]+)*) =", b)
            if m: b = b[:m.end()] + " " + record_of(b[m.end():].strip("\n"), labels_).lstrip(" ")
        out.append(rewrite(b, P, place if norm(place) in P.by else None, needs[k][1]))
    text_out = "\n\n".join(out)
    text_out = flatten(text_out)
    for v in GONE: text_out = without(text_out, v)
    GONE.clear()
    text_out = text_out.replace(".type-inv", ".type_inv")
    if "{w = w32}" in text_out and not re.search(r"use mir\.Syntax\.\{[^}]*w32", text_out): text_out = re.sub(r"(?m)^use ", "use mir.Syntax.{w32}\nuse ", text_out, count=1)
    used_places = []
    def place_name(m):
        w = m.group(1)
        if w.startswith("Need"): return m.group(0)
        new = ptable.get(norm(w))
        if new is None: note.append(f"no place {w}"); return m.group(0)
        if new not in used_places: used_places.append(new)
        return new
    text_out = re.sub(r"tie\.(?!the-claims|handed_clauses)([A-Za-z][A-Za-z0-9_-]*)", place_name, text_out)
    if inv_names:
        alt = "|".join(map(re.escape, inv_names))
        for pl in used_places:
            text_out = re.sub(r"(?<![\w-])(" + re.escape(pl) + r")((?: (?:" + alt + r"))+)(?=[\s)]|$)", r"\1", text_out)
    imports = [l for l in text_out.split("\n") if l.startswith("use ")]
    rest_text = re.sub(r"(?m)^use [^\n]*\n?", "", text_out).strip("\n")
    imports = [l for l in imports if not re.search(r"\.(Statement\.\{statement\}|Tie as tie)$", l) and "borrow.Author.Rules.{rules}" not in l]
    rules = ["use borrow.Author.Rules.{rules}"] if re.search(r"(?<![\w-])rules(?![\w-])", rest_text) else []
    folder = os.path.dirname(path)
    used = lambda body: [l for l in (trim_import(l, body) for l in imports) if l]
    if invariants:
        body = "\n\n".join(invariants)
        with open(os.path.join(folder, "Invariants.antt"), "w") as f:
            f.write("\n".join(used(body) + [f"use Rattle.{crate}.proofs.{fn_path}.Given as goal"]) + "\n\n" + body + "\n")
    if "goal." in rest_text:
        lead, rest_body = leading(rest_text)
        more = [f"use Rattle.{crate}.proofs.{fn_path}.Goals.{{{', '.join(used_places)}}}"] if used_places else []
        mine = [n for n in sorted(seen) if cited(n, rest_text)]
        if mine: more.append(f"use Rattle.{crate}.proofs.{fn_path}.Invariants.{{{', '.join(mine)}}}")
        if "view.up-" in rest_text: more += [f"use Rattle.{crate}.proofs.{fn_path}.Lts.View as view", f"use Rattle.{crate}.proofs.{fn_path}.Reads as reads", f"use Rattle.{crate}.proofs.{fn_path}.Tie as tie"]
        with open(os.path.join(folder, "Answers.antt"), "w") as f:
            f.write((lead + "\n" if lead else "") + "\n".join(used(rest_text) + rules + [f"use Rattle.{crate}.proofs.{fn_path}.Goals as goal"] + more) + "\n\n" + rest_body + "\n")
    os.remove(path)
    return ("ok; " + "; ".join(note)) if note else "ok"

def leading(text):
    """The file's first comment, where a blank line or a use line followed it."""
    ls = text.split("\n")
    n = 0
    while n < len(ls) and ls[n].startswith("--"): n += 1
    if n and n < len(ls) and ls[n] == "":
        return "\n".join(ls[:n]), "\n".join(ls[n:]).strip("\n")
    return "", text

def trim_import(l, body):
    m = re.match(r"use ([^{]+)\{(.*)\}$", l)
    if not m: return l
    names = [x.strip() for x in split_names(m.group(2))]
    keep = [x for x in names if cited(x, body)]
    return f"use {m.group(1)}{{{', '.join(keep)}}}" if keep else None

def split_names(s):
    out, depth, cur = [], 0, ""
    for ch in s:
        if ch == "," and depth == 0: out.append(cur); cur = ""; continue
        if ch in "([{": depth += 1
        if ch in ")]}": depth -= 1
        cur += ch
    if cur.strip(): out.append(cur)
    return out

def cited(name, body):
    name = name.split(" as ")[-1].strip()
    if "◌" in name:
        return any(p and p in body for p in name.split("◌"))
    return re.search(r"(?<![\w'-])" + re.escape(name) + r"(?![\w'-])", body) is not None

def main():
    names = json.load(open(sys.argv[1])); root = sys.argv[2]; only = set(sys.argv[3:])
    for key, entry in sorted(names.items()):
        m = re.match(r"Rattle-(\w+)-proofs\.(.*)\.Lts$", key)
        if not m or not isinstance(entry, dict): continue
        crate, fn = m.group(1), m.group(2)
        if crate == "all":
            crate, _, fn = fn.partition(".")
        fn = fn.replace(".", "/")
        if only and crate not in only: continue
        path = os.path.join(root, "crates", crate, "proofs", fn, "Proof.antt")
        if not os.path.exists(path): continue
        said = turn(path, entry, crate, fn)
        if said != "ok": print(f"{crate}/{fn}: {said}")

main()
