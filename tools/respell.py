#!/usr/bin/env python3
"""Spells the repository's own definitions and lemmas in snake case: run once, at the top, behind port.py.

Names that specs/ and proofs/ declare and that begin with a small letter lose capitals inside and dashes. In the folder of a function's proof, where
dashes join what the checker makes, only capitals go. Where two names would meet, the definition has the plain name, and the other one gets _lem
behind it, or _is where it is a field. Functions of src/, strings, inputs and outputs stay. Edits and pages follow, pages between backticks.
A line that begins 'meets:' names a file that had the new name already.
"""
import os
import re
import sys

NAME = r"[^\s(){}.;,@\"«»`|]+"
DECLARED = re.compile(
    r"(?m)^( *)((?:(?:pub|abbrev|unfoldable|record|data|private|opaque) +)*)([^\s(){}.;,@\"«»:|=]+)((?: \{[^{}\n]*\}| \([^()\n]*\))*) :(?= |$)"
)
ALIAS = re.compile(r"\bas ([a-z]+[A-Z][A-Za-z]*)")
OLDER = {"getD": "get_or", "leb": "nat_le", "ltb": "nat_lt", "eqb": "nat_eq"}


def files(*endings):
    for folder, dirs, names in os.walk("crates"):
        dirs[:] = sorted(d for d in dirs if d not in ("out", "target"))
        for f in sorted(names):
            if f.endswith(endings):
                yield os.path.join(folder, f)


def read(path):
    with open(path, encoding="utf-8") as f:
        return f.read()


def of_function(path):
    return bool(re.search(r"/proofs/.+/", path))


def snake(name, dashes):
    words = re.sub(r"(?<=[a-z0-9'])[A-Z]", lambda m: "_" + m.group().lower(), name)
    return words.replace("-", "_") if dashes else words


def spellings():
    found, fields = {}, set()
    for path in files(".antt"):
        text = read(path)
        for m in DECLARED.finditer(text):
            name = m.group(3)
            if name[0].islower():
                found[name] = found.get(name, True) and of_function(path)
                if len(m.group(1)) >= 2 and not m.group(2).startswith(("abbrev", "unfoldable")):
                    fields.add(name)
        for name in ALIAS.findall(text):
            found.setdefault(name, of_function(path))
    new = {n: snake(re.sub(r"(?<![^-])getD(?![^-])", "get_or", n), not inner) for n, inner in found.items()}
    meeting = {}
    for n, m in new.items():
        meeting.setdefault(m, []).append(n)
    for m, names in meeting.items():
        if len(names) > 1:
            plain = [n for n in names if "-" not in n and "_" not in n] or [n for n in names if "-" not in n]
            for n in names:
                if n != plain[0]:
                    new[n] = m + ("_is" if n in fields else "_lem")
    return {n: m for n, m in new.items() if n != m}


def respelled(text, new, fields_only):
    def turn(m):
        name = m.group()
        if name not in new:
            return name
        if fields_only and "-" in name and m.start() and text[m.start() - 1] == "." and name not in fields_only:
            return name
        return new[name]

    return re.sub(NAME, turn, text)


def turn_antt(text, new, fields):
    out = []
    for line in text.split("\n"):
        code, mark, comment = (line, "", "") if "--" not in line else re.match(r"(.*?)((?:^|(?<=\s))--(?=\s|$)|$)(.*)", line).groups()
        comment = re.sub(NAME, lambda m: new.get(m.group(), m.group()) if re.search("[a-z][A-Z]", m.group()) else m.group(), comment)
        comment = re.sub(r"`([^`]*)`", lambda m: "`" + respelled(m.group(1), new, None) + "`", comment)
        out.append(respelled(code, new, fields) + mark + comment)
    return "\n".join(out)


def turn_marked(text, new):
    return re.sub(r"`([^`\n]+)`", lambda m: "`" + respelled(m.group(1), new, None) + "`", text)


def main():
    new = spellings()
    fields = set()
    for path in files(".antt"):
        if not of_function(path):
            fields |= {m.group(3) for m in DECLARED.finditer(read(path)) if len(m.group(1)) >= 2}
    changed = 0
    for path in files(".antt", ".rt", ".edit"):
        text = read(path)
        if path.endswith(".antt"):
            turned = turn_antt(text, new, fields if of_function(path) else None)
        else:
            turned = respelled(text, new, None)
        old = set(re.findall(NAME, text))
        for n in sorted(old & set(new)):
            if new[n] in old and new.get(new[n], new[n]) == new[n] and not path.endswith(".edit"):
                print(f"meets: {path}: {n} would be {new[n]}, which stands there")
        if turned != text:
            changed += 1
            with open(path, "w", encoding="utf-8") as f:
                f.write(turned)
    for folder in (".", "docs", "docs/changes", "bench"):
        for f in sorted(os.listdir(folder)):
            if f.endswith(".md"):
                path = os.path.join(folder, f)
                text = read(path)
                turned = turn_marked(text, new)
                if turned != text:
                    changed += 1
                    with open(path, "w", encoding="utf-8") as it:
                        it.write(turned)
    print(f"{len(new)} names, {changed} files")


if __name__ == "__main__":
    sys.exit(main())
