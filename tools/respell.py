#!/usr/bin/env python3
"""Spells this repository's own definitions and lemmas as today's Rattle does: words in snake case, facts in camel case.

usage: tools/respell.py [--check]

Run once, at the top, right after the toolchain's port.py. A name that this repository declares, or binds, and that has a dash gets underscores, and one that
begins with a capital loses its dashes and gets capitals. Names of libraries stay, and so do the names that Rattle makes for a function's proof (they stand
in proofs/FUNCTION/Proof.antt, behind a dot or with a type of module tie). Files: specs/, proofs/, src/ and must-fail/ of every crate, and what names
definitions outside crates/ (harness/definitions). --check prints names that would fall together in a file, and writes nothing.
"""
import os
import re
import sys

NAMES = re.compile(r"[^\s(){};,@\"«»\[\]`]+")
# Names that would fall together with a library's in a file that has both.
OTHERWISE = {"of-fields": "double_of_fields"}
IN_FILE = {"crates/ieee754/proofs/Negation.antt": {"is-nan": "nan_is"}}


def texts(root):
    for folder, folders, files in os.walk(root):
        folders[:] = sorted(x for x in folders if x != "out")
        for name in sorted(files):
            if name.endswith((".antt", ".rt", ".edit")):
                yield os.path.join(folder, name)


def code_of(path, text):
    if path.endswith(".antt"):
        return re.sub(r"(?m)(^|(?<=\s))--.*$", "", text)
    return re.sub(r"//.*", "", text)


def crates():
    with open("crates.txt", encoding="utf-8") as lines:
        return {line.split(":")[0].split()[0] for line in lines if ":" in line and not line.startswith("#")}


def is_walk(path):
    return os.path.basename(path) == "Proof.antt" and "/proofs/" in path and "/proofs/Proof.antt" not in path


def imported(code, own):
    """The names that a file has from libraries."""
    found = set()
    for module, names in re.findall(r"\buse\s+([^\s;{]+?)\.?\{([^}]*)\}", code):
        steps = module.split(".")
        if not (steps[0] == "Rattle" and len(steps) > 1 and steps[1] in own):
            found |= {name.split(" as ")[-1].strip() for name in names.split(",")}
    return found


def own_names(paths):
    own = crates()
    declared, seen, made = set(), {}, set()
    for path in paths:
        if not path.endswith(".antt"):
            continue
        with open(path, encoding="utf-8") as file:
            code = code_of(path, file.read())
        for name, kind in re.findall(r"(?m)^(?:(?:abbrev|unfoldable|pub|data|record|instance) )*([^\s(){}:]+)[^\n]*?\s:\s+(\S+)", code):
            if is_walk(path) and (kind.startswith("tie.") or name.endswith("-spec")):
                made.add(name)
            else:
                declared.add(name)
        for line in re.findall(r"(?m)^ +(?:pub )?([^\s(){}:]+(?: [^\s(){}:]+)*)\s:\s", code):
            declared |= set(line.split())
        if not is_walk(path):
            lib = imported(code, own)
            for word in NAMES.findall(re.sub(r"\buse\s[^\n]*", "", code)):
                first = word.split(".")[0].lstrip("{(")
                if "-" in first and first not in lib and re.match(r"[A-Za-z][\w'?-]*$", first):
                    seen.setdefault(first, 0)
    return {name for name in declared | set(seen) if "-" in name and re.match(r"[A-Za-z_#][\w'?₀-₉+-]*$", name)}, made - declared, own


def new_spelling(name):
    if name in OTHERWISE:
        return OTHERWISE[name]
    parts = name.split("-")
    if name[0].isupper():
        return "".join(part[:1].upper() + part[1:] for part in parts)
    return "_".join(parts)


def plain_clause(match):
    """A clause that port.py left with its λ, since it names the definition `result`."""
    fact = re.sub(r"\br\b", "result", re.sub(r"\bresult\b", "\0", match.group(2))).replace("\0", "outcome_of")
    depth, closes = 0, len(fact)
    for i, letter in enumerate(fact):
        depth += (letter == "(") - (letter == ")")
        if depth == 0:
            closes = i
            break
    if fact.startswith("(") and closes == len(fact) - 1:
        fact = fact[1:-1]
    return f"{match.group(1)} {{ {fact} }}"


def turned(path, text, table, own):
    code = code_of(path, text)
    lib = imported(code, own) if path.endswith((".antt", ".rt")) else set()
    table = table | IN_FILE.get(path, {})
    # `result` is a word of today's clauses: the definition of that name, of crate value, is `outcome_of`.
    if re.search(r"\bMeaning\.\{[^}]*\bresult\b", code) or path == "crates/value/specs/Meaning.antt":
        table = table | {"result": "outcome_of"}
    if path.endswith(".rt"):
        text = re.sub(r"(?m)^( *ensures)\* \{ λ r\. ⌜ (.*) ⌝ \}$", plain_clause, text)
    walk = is_walk(path)
    known = {part for word in NAMES.findall(code) for part in word.split(".")}
    clashes = set()

    def word(match):
        parts = match.group(0).split(".")
        for i, part in enumerate(parts):
            if part not in table or part in lib and i == 0:
                continue
            if walk and i and parts[0] in ("c", "w", "w0", "w1", "tie"):
                continue
            if path.endswith(".rt") and part == "result" and not re.match(r".*\buse\b", match.string):
                continue
            if table[part] in known and table[part] != part:
                clashes.add((part, table[part]))
            parts[i] = table[part]
        return ".".join(parts)

    lines = []
    for line in text.split("\n"):
        if path.endswith(".antt"):
            m = re.match(r"(.*?(?:^|(?<=\s)))(--.*)$", line)
            head, comment = (m.group(1), m.group(2)) if m else (line, "")
        elif path.endswith(".rt"):
            at = line.find("//")
            head, comment = (line[:at], line[at:]) if at >= 0 else (line, "")
        else:
            head, comment = (line, "") if re.match(r"(old|new):", line) else ("", line)
        head = NAMES.sub(word, head)
        # In a comment a name turns if it stands between backticks, or if the file's code has it.
        comment = re.sub(r"`[^`]+`", lambda m: NAMES.sub(word, m.group(0)), comment)
        comment = NAMES.sub(lambda m: word(m) if set(m.group(0).rstrip(".:").split(".")) & known & set(table) else m.group(0), comment)
        lines.append(head + comment)
    text = "\n".join(lines)
    return text, clashes


def main(argv):
    paths = list(texts("crates"))
    names, made, own = own_names(paths)
    table = {name: new_spelling(name) for name in names if name not in made}
    both = {}
    for name, new in table.items():
        both.setdefault(new, []).append(name)
    for new, old in sorted(both.items()):
        if len(old) > 1:
            print("two names become one:", old, new)
    more = ["harness/definitions/compare"] if os.path.exists("harness/definitions/compare") else []
    for path in paths + more:
        with open(path, encoding="utf-8", newline="") as file:
            text = file.read()
        out, clashes = turned(path, text, table, own)
        for old, new in sorted(clashes):
            print(f"{path}: {old} meets {new}")
        if out != text and "--check" not in argv and path not in more:
            with open(path, "w", encoding="utf-8", newline="") as file:
                file.write(out)
    print(len(table), "names")
    return 0


if __name__ == "__main__":
    sys.exit(main(sys.argv[1:]))
