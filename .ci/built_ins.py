"""docs/BUILTINS.md beside the tables of the sources: for `.ci/names` and `.ci/manual`, which import it.

The column of forms is made from `crates/mz_builtin/specs/Table.antt`, whose lines have the types of each operator, built-in and
global. Names, order, words and examples of the page are kept by hand; every name of the table has a row, and no other has."""

import re
import subprocess

PAGE = "docs/BUILTINS.md"
TABLE = "crates/mz_builtin/specs/Table.antt"
HEADING = "| name | forms | what it is | example | its value |"
MISSING = "| written | refused as | write | its value |"
LETTERS = {"Case": "E", "Number": "N", "Scalar": "S", "Value": "V", "Any": "T", "None": ""}
TYPES = {"Bool": "bool", "Int": "int", "OptBool": "opt bool", "OptInt": "opt int", "SetInt": "set of int", "Text": "text"}
DECLARED = (("Int", "int"), ("Bool", "bool"), ("SetInt", "set of int"))
WORDS = ("in", "subset", "superset", "union", "intersect", "diff", "symdiff", "div", "mod", "xor")


def of(word, letter):
    """A scalar's type, where a letter stands for one."""
    return TYPES.get(word) or {"T": "", "OptT": "opt ", "SetT": "set of "}[word] + letter


def parameter(words, letter, is_par):
    kind, *rest = words
    if kind == "IndexSet":
        return "par set"
    par = "par " if is_par or kind.startswith("Par") else ""
    if kind in ("One", "Par"):
        return par + of(rest[0], letter)
    if kind == "Array":
        return f"{par}array of {of(rest[0], letter)}"
    indices = ",".join("_" * int(rest[0]))
    return f"{par}array[{indices}] of {of(rest[1], letter)}"


def result(words, letter, is_par):
    kind, *rest = words
    par = "par " if is_par else ""
    if kind == "One":
        return par + of(rest[0], letter)
    if kind == "IndexSet":
        return "par set"
    return f"array[int] of {of(rest[0], letter)}" if kind == "List" else f"array of {of(rest[0], letter)}"


def forms():
    """For each name of the table, its forms in their order, with the kind of what each gives."""
    found = {}
    with open(TABLE) as source:
        lines = re.findall(r'line \(codes "([^\n]*?)"\) letter\.(\w+) mark\.(\w+) \((.*)\) \(gives\.(.*)\)$', source.read(), re.M)
    for name, letter, mark, params, gives in lines:
        name, letter = name.replace("\\\\", "\\"), LETTERS[letter]
        given = [parameter(it.split(), letter, mark == "Par") for it in params.split(" ∷ ")[:-1]]
        gives = gives.split()
        if not name[0].isalpha() or name in WORDS:
            call = f"{given[0]} {name} {given[1]}" if len(given) == 2 else f"{name}{given[0]}"
        else:
            call = f"not {given[0]}" if name == "not" else f"{name}({', '.join(given)})"
        found.setdefault(name, []).append((f"{call}: {result(gives, letter, mark == 'ParResult')}", gives[-1]))
    return found


def cells(line):
    return [cell.strip() for cell in re.split(r"(?<!\\)\|", line)[1:-1]]


def codes(cell):
    """The texts between backticks; a bar in a table has a backslash before it."""
    return [code.replace("\\|", "|") for code in re.findall(r"`([^`]*)`", cell)]


def names_of(cell):
    return [re.match(r"[A-Za-z]\w*(?=\()|.*", code)[0] for code in codes(cell)]


def rows(page, heading):
    """The rows of each table with this heading, as (number of the line, cells)."""
    found, inside = [], False
    for number, line in enumerate(page.split("\n")):
        inside = line == heading or (inside and line.startswith("|"))
        if inside and line != heading and not line.startswith("|-"):
            found.append((number, cells(line)))
    return found


def made(page):
    """The page with its column of forms made anew, and what is wrong with its names."""
    known, seen, wrong = forms(), [], []
    lines = page.split("\n")
    for number, row in rows(page, HEADING):
        names = names_of(row[0])
        wrong += [f"{PAGE}:{number + 1}: `{name}` isn't in the table of built-ins" for name in names if name not in known]
        seen += names
        told = []
        for name in names:
            told += [(form, name) for form, _ in known.get(name, [])
                     if all(generic(form, name) != generic(it, other) for it, other in told)]
        row[1] = " ".join(f"`{form}`".replace("|", "\\|") for form, _ in told)
        lines[number] = f"| {' | '.join(row)} |"
    wrong += [f"{PAGE}: `{name}` has no row" for name in known if name not in seen]
    wrong += [f"{PAGE}: `{name}` has {seen.count(name)} rows" for name in sorted(set(seen)) if seen.count(name) > 1]
    return "\n".join(lines), wrong


def generic(form, name):
    """A form without its name, so that two names of the same types are told once."""
    return form.replace(name, "#", 1)


# ---- what the page shows, over the names of a model


def answers(model, stream, texts):
    """What is printed for these texts, each the arguments of an output item's list, or the line of the refusal."""
    with open("shown.mzn", "w") as target:
        target.write(model + "".join(texts) + "solve satisfy;\n")
    ran = subprocess.run(["mzc", "print", "shown.mzn"], input=stream.encode(), capture_output=True, timeout=60)
    return ran.stdout.decode(), ran.stderr.decode().strip()


def is_text(code):
    return re.match(r"(concat|join|show\w*)\(", code) is not None


def items(number, code, kinds):
    """Items of a model that write a value: by a declaration where it is of a variable, so that it is known before solving."""
    declared = [word for kind, word in DECLARED if kind in kinds and re.search(r"\bx\b", code)]
    if declared:
        return f"{declared[0]}: shown_{number} = {code};\noutput [show(shown_{number}), \"\\n\"];\n"
    return f"output [{code if is_text(code) else f'show({code})'}, \"\\n\"];\n"


def check(page, known, model, stream, tell):
    """Tells of each example, substitute and missing name of the page that isn't as it says."""
    shown = [(row[3], row[4], {kind for name in names_of(row[0]) for _, kind in known.get(name, [])}) for _, row in
             rows(page, HEADING)]
    shown += [(row[2], row[3], set()) for _, row in rows(page, MISSING)]
    for number, (code, value, kinds) in enumerate(shown):
        (code, *_), wanted = codes(code), codes(value)
        if wanted:
            printed, told = answers(model, stream, [items(number, code, kinds)])
        else:
            printed, told = answers(model, stream, [f"constraint {code};\noutput [\"\\n\"];\n"])
        if told or printed.split("\n")[0] != (wanted or [""])[0]:
            tell(f"{PAGE}: `{code}` is {printed.splitlines()[:1]} {told}")
    for _, row in rows(page, MISSING):
        told = answers(model, stream, [f"output [show({codes(row[0])[0]})];\n"])[1]
        if told.split(" ")[1:2] != [row[1]]:
            tell(f"{PAGE}: `{codes(row[0])[0]}` gets {told!r}")
