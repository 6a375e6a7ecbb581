"""docs/OTHER_TOOLS.md's table of forms, for `.ci/manual`: for each row, by the first code in it, a model with the form and the
kind as which it is refused (none where it isn't), or a model with its data."""

import re
import subprocess

PAGE = "docs/OTHER_TOOLS.md"
SOLVE = " solve satisfy;"
E = "enum E = {A, B}; "
FORMS = {
    "array[E] of int: a = [1, 2]": [(E + "array[E] of int: a = [1, 2];", "TypeMismatch"),
                                    (E + "array[E, 1..1] of int: a = [| 1 | 2 |];", "TypeMismatch")],
    "enum E; E = {A, B};": [("enum E; E = {A, B};", "UnknownName")],
    'output "text"': [('output "text";', "TypeMismatch")],
    'show("a")': [('output [show("a")];', "NoOverload")],
    'output ["\\(p(x))"]': [('predicate p(var int: z) = z > 1; var 1..3: x; output ["\\(p(x))"];', "NoOverload")],
    "length([])": [("int: n = length([]);", "Ambiguous"), ("output [show([])];", "Ambiguous"),
                   ("array[int] of int: a = [] ++ [];", "Ambiguous")],
    "[1, 2] = a": [("array[1..2] of var 1..3: a; constraint [1, 2] = a;", "LeftOut"),
                   ("array[1..2] of var 1..3: a; constraint a < a;", "LeftOut")],
    'assert(x > 1, "..")': [('var 1..3: x; constraint assert(x > 1, "..");', "NoOverload")],
    "a[..]": [("array[1..2] of int: a = [1, 2]; int: n = a[..];", "LeftOut")],
    "1..x": [("var 1..3: x; constraint 2 in 1..x;", "LeftOut"), ("var 1..3: x; constraint 2 in {x, 1};", "LeftOut"),
             ("var 1..3: x; constraint 2 ^ x = 4;", "LeftOut")],
    "o + 1": [("var opt 1..3: o; constraint o + 1 = 2;", "NoOverload"), ("var opt 1..3: o; constraint o > 2;", "LeftOut"),
              ("var opt bool: q; constraint q /\\ true;", "NoOverload")],
    "2 ^ -1": [("int: n = 2 ^ -1;", "NegativeArgument")],
    "max([a[i] | i in S where b[i]])": [
        ("array[1..2] of int: a = [1, 2]; array[1..2] of var bool: b; constraint max([a[i] | i in 1..2 where b[i]]) > 1;",
         "NoOverload")],
    "sum(s)": [("var set of 1..3: s; constraint sum(s) = 3;", "NoOverload"),
               ("var set of 1..3: s; constraint max(s) = 3;", "NoOverload")],
    "ann": [(f"int: {name} = 1;", "LeftOut") for name in ("ann", "any", "case", "op", "record", "string", "type")],
    "list": [(f"int: {name} = 1;", "Syntax") for name in ("list", "test", "function")],
    "E: e = max([A, B])": [(E + "E: e = max([A, B]);", "TypeMismatch")],
    "not": [("predicate p(var int: x) = let { var 2..9: d } in d * d = x; var 4..9: x; constraint not p(x);", "FreeInContext")],
    "var set of int: s": [("var set of int: s;", "UnboundedSet")],
    "a = [1, 2]": [("array[1..3] of int: a;", "IndexMismatch", "a = [1, 2];")],
    "n = 7": [("1..5: n;", "ParUndefined", "n = 7;")],
    "Depth 601": [("function int: f(int: n) = if n = 0 then 0 else f(n - 1) endif; int: k = f(1000);", "Depth")],
    "array[E] of string: label": [(E + 'array[E] of string: label = array1d(E, ["a", "b"]);', "LeftOut")],
    "enum E = anon_enum(n)": [("int: n = 2; enum F = anon_enum(n);", "LeftOut"), ("int: n = 2; enum F = _(1..n);", "LeftOut")],
    "float": [("var float: x;", "LeftOut"), ("int: n = 1.5;", "LeftOut"), ("int: n = 4 / 2;", "LeftOut")],
    "enum_next(e)": [(E + "E: e = enum_next(A);", "NoOverload"), (E + "E: e = enum_prev(B);", "NoOverload")],
    "card({x[i] | i in S})": [("array[1..2] of var 1..3: x; constraint card({x[i] | i in 1..2}) = 2;", "LeftOut")],
    "var 0..9: x :: output": [("var 0..9: x :: output;", "Syntax"), ("var 0..9: x :: add_to_output;", "")],
    ":: int_search(x, first_fail, indomain_min)": [
        ("var 0..9: x; solve :: int_search([x], first_fail, indomain_min) minimize x;", ""),
        ("var 0..9: x; solve :: restart(1.5) minimize x;", "LeftOut")],
    "n = 2 * 3;": [("int: n;", "Syntax", "n = 2 * 3;")],
    "LeftOut": [("\ufeffvar 1..3: x;", "LeftOut")],
    'include "x.mzn"': [('include "x.mzn";', "MissingFile")],
}


def told(model, data=None):
    """The kind that the model with its data is refused as, or nothing."""
    files = ["form.mzn"] + ["form.dzn"] * (data is not None)
    for name, text in zip(files, (model if "solve" in model else model + SOLVE, data)):
        with open(name, "w", encoding="utf-8") as target:
            target.write(text)
    line = subprocess.run(["mzc", "compile", *files], capture_output=True, timeout=60).stderr.decode()
    return (line.split(" ")[1:2] or [""])[0].strip()


def check(rows, tell):
    """Tells of each row of the table whose form is refused as another kind, or that has no model here."""
    unseen = set(FORMS)
    for written, refused, _ in rows:
        codes = [code.replace("\\|", "|") for code in re.findall(r"`([^`]*)`", written + " " + refused)]
        found = [code for code in codes[:1] + codes if code in FORMS]
        if not found:
            tell(f"{PAGE}: no model has the form {written}")
            continue
        unseen.discard(found[0])
        for model, kind, *data in FORMS[found[0]]:
            if told(model, *data) != kind:
                tell(f"{PAGE}: `{model}` is refused as {told(model, *data)!r}")
            if kind and kind not in refused:
                tell(f"{PAGE}: the row of {written} doesn't name {kind}")
    for form in unseen:
        tell(f"{PAGE}: no row has the form {form}")
