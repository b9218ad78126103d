#!/usr/bin/env python3
"""Spells the repository's own definitions, lemmas, fields and bound variables in snake case, as today's Rattle does: `siteOf` is `site_of`, `no-plan` is `no_plan`.

usage: tools/snake_names.py [--check] [ROOT]

Run once, straight after port.py. It goes by whole words, in .antt files, in the clauses and `ghost use` items of .rt files, and in code spans of README.md and docs/.
What stays: types and modules, names that a file imports from a library, the names of goals that Rattle makes, functions of src/, strings.
It stops where two names of one file would fall together, or where a new name is one that the file imports or a parameter of the code.
"""

import collections
import os
import re
import sys

WORD = re.compile(r'[^\s(){}.;,@"«»]+')
QUIET = re.compile(r'"(?:[^"\\\n]|\\.)*"|(?<![^\s(){}.;,@"«»])--[^\n]*|\{-.*?-\}', re.S)
USE = re.compile(r"\buse\s+([^\s;{]+?)\.?\s*(?:\{([^;}]*)\}|(?=[\s;]))(?:\s+as\s+([^\s;]+))?", re.S)
MARKS = r"(?:(?:pub|abbrev|unfoldable|pattern|axiom|record|data) )*"
DECLARED = re.compile(r'(?m)^( *)' + MARKS + r'([^\s(){}.;,@"«»]+)(?: \{[^{}\n]*\})* :(?=\s)')
BINDERS = [re.compile(p) for p in (r"[({]((?:[^\s(){}.;,@\"«»:=]+ )+):", r"λ ((?:[^\s(){}.;,@\"«»]+ )*[^\s(){}.;,@\"«»]+)\.", r"\blet ([^\s(){}.;,@\"«»]+)", r"[({]((?:[^\s(){}.;,@\"«»]+ )*[^\s(){}.;,@\"«»:=]+) = ")]
CLAUSE = re.compile(r"(?:requires|ensures)\s*\*?\s*(?:\w+\s*)?\{|ghost\s*(?:\w+\s*(?::\s*(?:(?:owns|lends)\s*)?|=\s*))?\{")
GHOST_USE = re.compile(r"ghost\s+use\b[^;]*;")
RUST = re.compile(r"""//[^\n]*|/\*.*?\*/|b?"(?:\\.|[^"\\])*"|b?'(?:\\.|[^'\\])'|'?\w+|\s+|.""", re.S)
SPAN = re.compile(r"`[^`\n]+`")
# Lemmas that port.py spelled as the function that they are about.
AGAIN = {"meaning/proofs/DayLaws.antt": "is_field", "meaning/proofs/IntervalLaws.antt": "run_end", "meaning/proofs/PictureLaws.antt": "last_frame"}


def own_spelling(name):
    """The new spelling, or None: lower camel case and dashes go, and so does a capital letter that stands for a worked case."""
    if not re.match(r"[A-Za-z]", name) or re.match(r"[A-Z]", name) and "-" not in name:
        return None
    if re.search(r"[≢≡◌∷+*^<≤→/|×]", name):
        return None
    new = re.sub(r"(?<=[a-z0-9])[A-Z]", lambda m: "_" + m[0].lower(), name).replace("-", "_")
    if re.match(r"[A-Z]", new):
        new = new.lower()
    return new if new != name else None


def antt_files(root):
    for folder, dirs, files in os.walk(os.path.join(root, "crates")):
        dirs[:] = sorted(d for d in dirs if d != "out")
        for f in sorted(files):
            if f.endswith(".antt"):
                yield os.path.join(folder, f)


def read(path):
    with open(path, encoding="utf-8") as f:
        return f.read()


def is_goals(path):
    """The file of a function's proof, in which names that Rattle makes stand."""
    return bool(re.search(r"/proofs/(.*/)?(Proof|Answers|Invariants)\.antt$", path))


def bare(text):
    return QUIET.sub(" ", text)


def imports(text, crates):
    """The names that a file takes from libraries, those that it takes from the repository, and the short names of modules that Rattle makes."""
    theirs, ours, made = set(), set(), set()
    for path, items, alias in USE.findall(text):
        steps = path.split(".")
        own = steps[0] == "Rattle" and len(steps) > 1 and steps[1] in crates or steps[0] == "package"
        names = [n for n in re.split(r"[\s,]+", items or "") if n]
        if own:
            ours.update(names)
            if re.search(r"\.(Tie|Goals|Given|Statement|Reads|Code|contracts)(\.|$)", path + "."):
                made.update(names + [alias or steps[-1]])
        else:
            theirs.update(names + ([] if items else [alias or steps[-1]]))
    return theirs, ours, made


def table_of(root, crates):
    found = collections.defaultdict(set)
    for path in antt_files(root):
        text = bare(read(path))
        goals = is_goals(path)
        for m in DECLARED.finditer(text):
            after = text[m.end() : m.end() + 60].strip()
            if goals and re.match(r"(abbrev )?(tie|goal)\.", after):
                continue
            found[m[2]].add(path)
        for pattern in BINDERS:
            for m in pattern.finditer(text):
                for name in m[1].split():
                    found[name].add(path)
        if not goals:
            # Variables of patterns, and short names of modules.
            theirs, at = imports(text, crates)[0], [m.span(1) for m in USE.finditer(text)]
            for m in WORD.finditer(text):
                if m[0] not in theirs and own_spelling(m[0]) and text[m.start() - 1 : m.start()] != "." and not any(a <= m.start() < b for a, b in at):
                    found[m[0]].add(path)
    table = {n: s for n in found if (s := own_spelling(n))}
    # A lemma that would have its function's name, or that of a library's word, ends in _lem.
    taken = {s for n, s in table.items() if "-" not in n} | {n for n in found if n not in table}
    for path in antt_files(root):
        taken |= imports(bare(read(path)), crates)[0]
    for n, s in table.items():
        if "-" in n and s in taken:
            table[n] = s + "_lem"
    return table


class Turner:
    def __init__(self, table, crates):
        self.table, self.crates, self.count, self.bad = table, crates, 0, []

    def keeps(self, text, goals):
        theirs, ours, made = imports(text, self.crates)
        keep = {n for n in theirs if n in self.table}
        if goals:
            for m in DECLARED.finditer(text):
                if re.match(r"(abbrev )?(tie|goal)\.", text[m.end() : m.end() + 60].strip()):
                    keep.add(m[2])
        return keep, theirs

    def words(self, text, keep, made_heads=()):
        paths = [m.span(1) for m in USE.finditer(text)]

        def one(m):
            if any(a <= m.start() < b for a, b in paths):
                return m[0]
            word = m[0]
            dotted = text[m.start() - 1 : m.start()] == "."
            if dotted and made_heads:
                head = re.search(r'([^\s(){}.;,@"«»]+)\.$', text[: m.start()])
                if head and head[1] in made_heads:
                    return word
            if word in keep and not dotted or word not in self.table:
                return word
            self.count += 1
            return self.table[word]

        return WORD.sub(one, text)

    def clashes(self, path, text, keep, theirs):
        code = bare(text)
        for m in USE.finditer(code):
            code = code.replace(m[1], " ")
        words = {m[0] for m in WORD.finditer(code) if code[m.start() - 1 : m.start()] != "."}
        by_new = collections.defaultdict(set)
        for w in words:
            by_new[self.table[w] if w in self.table and w not in keep else w].add(w)
        for new, olds in by_new.items():
            if len(olds) > 1:
                self.bad.append(f"{path}: {', '.join(sorted(olds))} fall together as {new}")

    def antt(self, path, text):
        for ending, name in AGAIN.items():
            if path.endswith(ending):
                text = re.sub(rf"(?<![\w.'-]){name}(?![\w'-])", name + "_lem", text)
        code = bare(text)
        keep, theirs = self.keeps(code, is_goals(path))
        made = imports(code, self.crates)[2]
        self.clashes(path, text, keep, theirs)
        out, at = [], 0
        for m in QUIET.finditer(text):
            out.append(self.words(text[at : m.start()], keep, made))
            out.append(m[0] if m[0][0] == '"' else self.comment(m[0]))
            at = m.end()
        return "".join(out + [self.words(text[at:], keep, made)])

    def comment(self, text):
        camel = lambda m: self.table[m[0]] if re.search("[a-z][A-Z]", m[0]) and m[0] in self.table else m[0]
        text = SPAN.sub(lambda m: self.words(m[0].replace("`", " ` "), ()).replace(" ` ", "`"), text)
        return re.sub(r"[A-Za-z][\w'-]*", camel, text)

    def rt(self, path, text):
        theirs, ours, made = imports("\n".join(GHOST_USE.findall(text)), self.crates)
        keep = {n for n in theirs if n in self.table}
        params = set(re.findall(r"(?:[(,]|\blet)\s*(?:mut\s+)?(\w+)\s*:", text))
        for old in ours:
            if self.table.get(old) in params:
                self.bad.append(f"{path}: {old} would be {self.table[old]}, which is a parameter")
        for old in ours:
            if self.table.get(old) in theirs:
                self.bad.append(f"{path}: {old} would be {self.table[old]}, which a library has")
        out, at = [], 0
        while at < len(text):
            m = RUST.match(text, at)
            word, end = m[0], m.end()
            clause = CLAUSE.match(text, at) if word in ("requires", "ensures", "ghost") else None
            use = GHOST_USE.match(text, at) if word == "ghost" else None
            if use:
                end = use.end()
                out.append(self.words(use[0], keep))
            elif clause:
                depth, end = 1, clause.end()
                while depth:
                    depth += {"{": 1, "}": -1}.get(text[end], 0)
                    end += 1
                out.append(clause[0] + self.words(text[clause.end() : end], keep))
            elif word.startswith("//"):
                out.append(self.comment(word))
            else:
                out.append(word)
            at = end
        return "".join(out)

    def md(self, path, text):
        # A label of a must-fail edit or a file's name has its own spelling already: neither is in the table.
        return SPAN.sub(lambda m: "`" + self.words(m[0][1:-1], ()) + "`", text)


def main(args):
    check = "--check" in args
    args = [a for a in args if a != "--check"]
    root = args[0] if args else "."
    crates = set(os.listdir(os.path.join(root, "crates")))
    table = table_of(root, crates)
    turner = Turner(table, crates)
    todo = {}
    for path in antt_files(root):
        todo[path] = turner.antt(path, read(path))
    for folder, dirs, files in os.walk(os.path.join(root, "crates")):
        dirs[:] = sorted(d for d in dirs if d != "out")
        for f in sorted(files):
            if f.endswith(".rt"):
                path = os.path.join(folder, f)
                todo[path] = turner.rt(path, read(path))
    docs = [os.path.join(root, "README.md")]
    for folder, dirs, files in os.walk(os.path.join(root, "docs")):
        docs += [os.path.join(folder, f) for f in sorted(files) if f.endswith(".md")]
    for path in docs:
        todo[path] = turner.md(path, read(path))
    for line in turner.bad:
        print("clash: " + line)
    if check or turner.bad:
        print(f"{len(table)} names, {turner.count} words, {len(turner.bad)} clashes; nothing written")
        return 1 if turner.bad else 0
    for path, text in todo.items():
        if text != read(path):
            with open(path, "w", encoding="utf-8") as f:
                f.write(text)
    print(f"{len(table)} names, {turner.count} words")
    return 0


if __name__ == "__main__":
    sys.exit(main(sys.argv[1:]))
