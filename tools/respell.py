#!/usr/bin/env python3
"""Brings the repository's own definitions, lemmas and record fields to the spelling of PORTING.md, part 3.

Run it once, at the top of the repository, right after port.py; a second run changes nothing. It reads the names that
crates/*/specs and crates/*/proofs declare, respells each by rule, and rewrites every whole word that names one there,
in the clauses of crates/*/src, in crates/*/must-fail, and in backticked text and code blocks of README.md and docs/*.md.
Where a new spelling would fall together with another name of a file it writes nothing and says where: EXCEPT and
LEMMAS below hold what was decided about those. `--table` prints old and new names.
"""

import collections
import glob
import os
import re
import sys

# Words whose spelling by rule would fall together with another name.
EXCEPT = {
    # crates/book/proofs/Says.antt names the contracts' modules rename_file and import_filenames
    "renameFile": "rename_file_answer",
    "importFilenames": "import_filenames_answer",
    # a local of crates/names/src/decide.rt is called rows_held
    "rowsHeld": "rows_are_held",
    # a field of a struct of src/ has the name, which a clause could then take for the import (CONTRACTS.md, Names and
    # imports): the first three have the names of the functions that answer the same
    "cutFirst": "is_cut_first",
    "cutSecond": "is_cut_second",
    "hasParent": "has_parent_path",
    "hasRoot": "has_given_root",
    "isNamed": "entry_is_named",
    "isOpen": "is_left_open",
    "keepsLink": "link_is_kept",
    "padDirectory": "pad_directory_name",
    "padRow": "row_of_pad",
    "sizeOnDisk": "disk_size_of",
}

# Lemmas that have the name of a definition as it is spelled now: CONTRACT_STYLE.md, Names, 3 gives them `_lem`.
# The file that declares one, and its name.
LEMMAS = {
    "crates/layout/proofs/Starting.antt": ("found_within",),
    "crates/lists/proofs/Decimals.antt": ("last_digits",),
    "crates/lookup/proofs/Rows.antt": ("text_at",),
    "crates/tables/proofs/Moves.antt": ("row_moved",),
    "crates/types/proofs/Boundary.antt": ("unsigned_of",),
    "crates/imports/proofs/Importing.antt": ("in_order",),
    # these meet their definitions in no file now, and would in the first that needs both
    "crates/book/proofs/Rooted.antt": ("same_number",),
    "crates/hashes/proofs/Listing.antt": ("no_room",),
    "crates/imports/proofs/Giving.antt": ("name_in",),
    "crates/links/proofs/Walk.antt": ("goes_on",),
    "crates/listing/proofs/Steps.antt": ("after_line",),
    "crates/path/proofs/Splits.antt": ("any_at",),
    "crates/plan/proofs/Plans.antt": ("number_by",),
    "crates/reached/proofs/Documents.antt": ("end_to_end",),
    "crates/sound/proofs/Added/Places.antt": ("place_at",),
}

SKIP = set("data record deriving module where use mod pub package open as unfoldable abbrev axiom unfold unfolding "
           "ruleset mutual infix infixl infixr elim let in do Type coe fcoe tcoe hcom com search grind simp omega rw "
           "cc ground assumption subst".split())
DECLARED = re.compile(r"^(\s*)((?:(?:abbrev|unfoldable|axiom|pub|where|open|elim)\s+)*)([^\s(){}.,;:]+)\s+:(?=\s|$)(.*)$")
TYPE = re.compile(r"^\s*(?:pub\s+)*(?:record|data)\s+([^\s(){}.,;:]+)")
USE = re.compile(r"^\s*(?:ghost\s+)?use\s+([^\s{}:]+?)\.\{([^}]*)\}", re.M)
NAME = re.compile(r"[^\s(){}\[\].,;:λ‵\"`]+")
WORD = re.compile(r"[\w'-]+")
CAMEL = re.compile(r"^(?=.*[a-z0-9][A-Z])[a-z][A-Za-z0-9_']*$")
COMMENT = re.compile(r"(?m)(?:^|(?<=\s))--(?=\s|$).*$")
RUST_COMMENT = re.compile(r"//.*")
STRUCT = re.compile(r"(?ms)^(?:pub(?:\([a-z]+\))? )?struct \w+[^{;]*\{(.*?)^\}")
FIELD = re.compile(r"(?m)^    (?:pub(?:\([a-z]+\))? )?(?:ghost )?(\w+):")
FUNCTION = re.compile(r"(?ms)^( *)(?:pub(?:\([a-z]+\))? )?(?:unsafe )?(?:extern \"C\" )?fn \w.*?^\1\}$")
FACT = re.compile(r"(?:^|→\s*)(?:Type \S+|Contract \S+)\s*$")


def snake(word):
    return re.sub(r"(?<=[a-z0-9])(?=[A-Z])", "_", word).lower()


def read(path):
    with open(path, encoding="utf-8") as f:
        return f.read()


def found(*patterns):
    return sorted(p for pattern in patterns for p in glob.glob(pattern, recursive=True))


def declared(text):
    """The names that a file declares: (modifiers, name, type), records and data types too."""
    lines = COMMENT.sub("", text).split("\n")
    for i, line in enumerate(lines):
        m = TYPE.match(line)
        if m:
            yield "", m[1], "Type"
            continue
        m = DECLARED.match(line)
        if not m:
            continue
        said = m[4]
        for more in lines[i + 1:]:
            if not more.strip() or len(more) - len(more.lstrip()) <= len(m[1]):
                break
            said += " " + more.strip()
        yield m[2], m[3], said.strip()


def module(path):
    """Rattle.c.specs.M of crates/c/specs/M.antt."""
    return "Rattle." + path[len("crates/"):-len(".antt")].replace("/", ".")


def respelled(name, kind, camel):
    """The new spelling of a declared name. kind says what its signature ends in."""
    if name in EXCEPT:
        return EXCEPT[name]
    if CAMEL.match(name):
        return name[0].upper() + name[1:] if kind == "fact" else snake(name)
    if "-" in name and re.search(r"(?:^|-)[a-z]\w*[a-z0-9][A-Z]", name):
        return "-".join("get_or" if s == "getD" else camel.get(s) or (snake(s) if CAMEL.match(s) else s) for s in name.split("-"))
    if name == "get_d_sets":
        return "get_or-sets"
    return name


def main(argv):
    antt = found("crates/*/specs/**/*.antt", "crates/*/proofs/**/*.antt")
    rust = found("crates/*/src/**/*.rt")
    edits = found("crates/*/must-fail/*.edit")
    docs = found("README.md", "docs/*.md")
    text = {p: read(p) for p in antt + rust + edits + docs}
    bare = {p: COMMENT.sub("", text[p]) for p in antt} | {p: RUST_COMMENT.sub("", text[p]) for p in rust}

    # what is declared, and the new name of each word that is a definition, a field or a binder in camel case
    own = {p: list(declared(text[p])) for p in antt}
    facts = {n for p in antt for _, n, t in own[p] if FACT.search(t)}
    known = {n for p in antt for _, n, _ in own[p]}
    words = known | {w for p in antt for w in NAME.findall(bare[p]) if CAMEL.match(w)}
    uses = {p: USE.findall(bare[p]) for p in antt + rust}
    kit = {}
    for p in antt + rust:
        mine = {"Rattle." + c for c in os.listdir("crates")}
        kit[p] = {i.split(" as ")[-1].strip() for m, items in uses[p] if ".".join(m.split(".")[:2]) not in mine for i in items.split(",")}
    words -= {w for p in antt + rust for w in kit[p]}
    kind = lambda w: "fact" if w in facts else "word"
    camel = {w: respelled(w, kind(w), {}) for w in words if CAMEL.match(w)}
    new = {w: respelled(w, kind(w), camel) for w in words}
    new = {w: n for w, n in new.items() if n != w}

    # names of one module: definitions with a dash, and the lemmas above
    scoped = {}
    for p in antt:
        if p.endswith("/Proof.antt"):
            continue
        for mods, n, _ in own[p]:
            if "-" in n and n not in new and re.search("abbrev|unfoldable", mods):
                scoped.setdefault(p, {})[n] = EXCEPT.get(n, n.replace("-", "_"))
            if n in LEMMAS.get(p, ()) and n + "_lem" not in {m for _, m, _ in own[p]}:
                scoped.setdefault(p, {})[n] = n + "_lem"
    modules = {module(p): m for p, m in scoped.items()}
    local = {}
    for p in antt + rust:
        local[p] = dict(scoped.get(p, {}))
        for m, items in uses[p]:
            for i in items.split(","):
                i = i.strip().split(" as ")
                if len(i) == 1 and i[0] in modules.get(m, {}):
                    local[p][i[0]] = modules[m][i[0]]

    # what falls together
    fields = {f for p in rust for m in STRUCT.findall(bare[p]) for f in FIELD.findall(m)}
    defined = {n for p in antt for mods, n, _ in own[p] if re.search("abbrev|unfoldable", mods)}
    clashes = [("src/", n, ["a field of a struct"]) for w, n in sorted(new.items()) if w in defined and n in fields]
    parts = [(p, bare[p]) for p in antt] + [(p, f[0]) for p in rust for f in FUNCTION.finditer(bare[p])]
    for p, part in parts:
        table = new | local[p]
        pattern = NAME if p in own else WORD
        seen = collections.Counter()
        at = collections.defaultdict(list)
        for m in pattern.finditer(part):
            before = part[m.start() - 1:m.start()]
            after = part[m.end():m.end() + 3]
            line = part[part.rfind("\n", 0, m.start()) + 1:m.start()]
            w = m[0]
            key = after.startswith(" = ") and (not line.strip() or line.rstrip()[-1] in "{;") and w not in {n for _, n, _ in own.get(p, ())}
            if key:
                continue  # of a record: it binds nothing
            if w in table:
                seen[table[w]] += 1
            elif before == "." or part[m.start() - 2:m.start()] == "::" or part[m.end():m.end() + 1] == "." and line.lstrip().startswith("use "):
                continue
            elif p in rust and (after.startswith("(") or line.rstrip().endswith("fn") or line.lstrip().startswith("use ") or re.search(r"(ensures|requires)\s*$", line)):
                continue  # a function, or a clause's label
            else:
                at[w].append(line.strip()[-40:] + w + part[m.end():m.end() + 30].split("\n")[0])
        for w in seen:
            if w in at or w in SKIP or w in kit[p]:
                clashes.append((p, w, at[w][:2] or ["a name of the kit or a reserved word"]))
        names = collections.defaultdict(set)
        for _, n, _ in own.get(p, ()):
            names[table.get(n, n).lower()].add(n)
        clashes += [(p, k, sorted(v)) for k, v in names.items() if len(v) > 1 and v & set(table)]
    if clashes:
        for p, w, where in clashes:
            print("falls together:", p, w, *where, sep="\n    ")
        print(f"respell: {len(clashes)} names fall together, nothing is written")
        return 1

    # prose follows the words, those that port.py respelled before too
    spelled = known | set(new.values())

    def prose(w):
        return new.get(w) or (snake(w) if CAMEL.match(w) and snake(w) in spelled else w)

    def turn(p):
        if p in docs:
            return re.sub(r"(?ms)^```.*?^```|`[^`\n]+`", lambda m: WORD.sub(lambda w: prose(w[0]), m[0]), text[p])
        table = new | local.get(p, {})
        if p in edits or p in rust:
            quoted = re.compile(r"\"(?:[^\"\\\n]|\\.)*\"|b?'(?:[^'\\\n]|\\.)'|//.*|[\w'-]+")
            return quoted.sub(lambda m: WORD.sub(lambda w: prose(w[0]), m[0]) if m[0].startswith("//") else prose(m[0]) if p in edits else table.get(m[0], m[0]), text[p])
        out, last = [], 0
        for m in COMMENT.finditer(text[p]):
            out.append(NAME.sub(lambda w: table.get(w[0], w[0]), text[p][last:m.start()]))
            out.append(WORD.sub(lambda w: local[p].get(w[0]) if w[0] in scoped.get(p, {}) and "-" in w[0] else prose(w[0]), m[0]))
            last = m.end()
        return "".join(out) + NAME.sub(lambda w: table.get(w[0], w[0]), text[p][last:])

    files = 0
    for p in text:
        t = turn(p)
        if t != text[p]:
            files += 1
            with open(p, "w", encoding="utf-8") as f:
                f.write(t)
    table = sorted(new.items()) + sorted((f"{module(p)}.{w}", n) for p, m in scoped.items() for w, n in m.items())
    if "--table" in argv:
        for w, n in table:
            print(w, n, sep="\t")
    print(f"respell: {len(table)} names renamed, {files} files")
    return 0


if __name__ == "__main__":
    sys.exit(main(sys.argv[1:]))
