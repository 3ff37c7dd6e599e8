#!/usr/bin/env python3
"""Makes Coq's text of the definitions: translate.py FOLDER >Specs.v, of the twelve files of that
folder by which a file is right. What it can't read it names, and fails."""

import re
import sys
import textwrap
from pathlib import Path

NAMES = """Positions Dice Plays Strategies Horizon Ranks Versions Books Files BoardFiles
    WrittenNumbers RightFiles""".split()

# what stands for a word or a sign; after a variable and its type, × is "exists" and → "forall"
WORDS = {"ℕ": "nat", "List": "list", "Bool": "bool", "suc": "S", "zero": "O"}
SIGNS = {"→": "->", "×": "/\\", "⊎": "\\/", "¬": "~", "⊥": "False"}
SIGNS |= {"≡": "=", "≢": "<>", "≤": "<=", "∷": "::"}

# words that would be taken for Coq's, and what no term has in Coq
COQ = re.compile(r"\b(?:nat|list|bool|S|O)\b")
LEFT = re.compile(r"--|[^ -~]|{(?!\|)|(?<!\|)}|\b(?:record|where|let|case|with)\b")

# the words of the kit that are the same in Coq's library, or stand in Prelude.v
KIT = """true false [] length map flat_map find if◌then◌else◌ slice_index slice_index_or slice_set sum
    sum_by count_by replicate take drop unwrap_or min max nat_le nat_lt codes w16 w32 w64 w128
    from_be_bytes to_be_bytes ◌+◌ ◌-◌ ◌*◌ ◌/◌ ◌^◌ ◌<◌ ◌==◌ ◌&&◌ ◌||◌ ◌++◌""".split()
KIT = {*KIT, *WORDS, *(f"◌{sign}◌" for sign in SIGNS)}

known = {"std.specs.Prelude": KIT, "std.specs.Int": KIT}  # which names each file gives
fields = {}  # of a record's field, as it stands after a point, the name that it has in Coq


class Unread(Exception):
    pass


def rest_of_bracket(text):
    """A text up to where the bracket that it stands in is closed, without what is in brackets."""
    found, depth = "", 0
    for sign in text:
        depth += (sign in "([{") - (sign in ")]}")
        if depth < 0:
            break
        found += sign if not depth else ""
    return found


def term(text):
    """A term or a type."""
    text = re.sub(r"\s+", " ", text).replace("Unit {0}", "True").strip()
    given = lambda found: re.sub(r"(\w+) = ", lambda name: f"{fields[name[1]]} := ", found[1])
    text = re.sub(r"record \{([^{}]*?);? \}", lambda found: "{|" + given(found) + " |}", text)
    text = re.sub(r"(?<=[\w)])\.(\w+)", lambda found: f".({fields[found[1]]})", text)
    text = re.sub(r"λ ((?:\w+ )*\w+)\. ", r"fun \1 => ", text)
    # "exists" reaches to the end of its bracket, so no arrow and no ⊎ may follow there
    for found in re.finditer(r"\(\w+ : \w+\) × ", text):
        if re.search("[→⊎]", rest_of_bracket(text[found.end() :])):
            raise Unread(text)
    text = re.sub(r"\((\w+) : (\w+)\) × ", r"exists \1 : \2, ", text)
    text = re.sub(r"((?: ?\(\w+ : \w+\))+) → ", r" forall \1, ", text)
    if COQ.search(text):
        raise Unread(text)
    text = re.sub(r"\w+", lambda word: WORDS.get(word[0], word[0]), text)
    text = re.sub("[%s]" % "".join(SIGNS), lambda sign: SIGNS[sign[0]], text).replace("==", "=?")
    if LEFT.search(text):
        raise Unread(text)
    return text.strip()


def sort(text):
    """A type: `Type 0` alone is a set, and of what depends on something a proposition."""
    text = term(text)
    return re.sub("Type 0$", "Set" if text == "Type 0" else "Prop", text).replace("Type 1", "Type")


def blocks(text):
    """The lines that aren't indented, each with the indented ones below it."""
    text = re.sub(r"(?m)^ *--.*\n", "", textwrap.dedent(text))
    found = re.findall(r"(?m)^\S.*(?:\n(?:[ }].*)?$)*", text)
    if "".join("".join(found).split()) != "".join(text.split()):
        raise Unread(text)
    return found


def arrows(text):
    """The parts of a type between its outermost arrows."""
    parts, depth = [""], 0
    for sign in text:
        depth += (sign == "(") - (sign == ")")
        parts = [*parts, ""] if sign == "→" and not depth else [*parts[:-1], parts[-1] + sign]
    return [part.strip() for part in parts]


def function(name, type, equations, is_local):
    """A function by its equations, which have as many patterns each."""
    rows = []
    for equation in equations:
        left, right = re.split(r"\s=\s", equation, 1)
        body, *local = re.split(r"\swhere\n", right, 1)
        lets = "".join(definitions(text, is_local=True)[0] for text in local)
        rows.append((re.findall(r"\([^()]*\)|\S+", left)[1:], lets + term(body)))
    count = len(rows[0][0])
    types, result = arrows(type)[:count], sort(" → ".join(arrows(type)[count:]))
    result = "Prop" if count and result == "Set" else result
    # it ends by the first argument that a pattern takes apart where it calls itself
    calls = [patterns for patterns, body in rows if re.search(rf"\b{name}\b", body)]
    apart = [i for i in range(count) if any(patterns[i].startswith("(") for patterns in calls)]
    arguments, body = rows[0]
    if len(rows) > 1 or not all(re.fullmatch(r"\w+", pattern) for pattern in arguments):
        arguments = [f"a{i + 1}" for i in range(count)]
        cases = "".join(f"\n  | {', '.join(map(term, row))} => {body}" for row, body in rows)
        body = f"match {', '.join(arguments)} with{cases}\n  end"
    given = "".join(f" ({a} : {sort(t)})" for a, t in zip(arguments, types))
    if is_local and not calls:
        return f"let {name}{given} : {result} := {body} in\n  "
    if is_local or (calls and not apart):
        raise Unread(f"{name} calls itself")
    given += f" {{struct {arguments[apart[0]]}}}" if calls else ""
    return f"{'Fixpoint' if calls else 'Definition'} {name}{given} : {result} :=\n  {body}.\n"


def members(text):
    """The names and types of constructors or fields."""
    found = [re.fullmatch(r"(?s)(?:pub )?(\w+) : (.*)", block) for block in blocks(text)]
    return [(each[1], sort(each[2])) for each in found]


def definitions(text, is_local=False):
    """The definitions of a text, in Coq, and their names."""
    made, names, left = "", set(), blocks(text)
    while left:
        block = left.pop(0)
        use = re.fullmatch(r"use Rattle\.([\w.]+)\.\{(.*)\}\s*", block)
        if use and set(use[2].split(", ")) <= known.get(use[1], set()):
            continue
        head = re.fullmatch(
            r"(?s)pub (data|record) (\w+)((?: \([^()]*\))*) : (.*?) where\n(.*)", block
        )
        sign = re.fullmatch(r"(?s)(?:(?:abbrev|unfoldable) pub )?(\w+) : (.*)", block)
        if head and not is_local:
            what, name, given, type, inside = head.groups()
            rows, given = members(inside), given and " " + term(given)
            made += "Inductive " if what == "data" else "Record "
            made += f"{name}{given} : {'Prop' if given else sort(type)} :="
            names |= {name, *(each for each, _ in rows if what == "data")}
            if what == "data":
                made += "".join(f"\n| {each} : {type}" for each, type in rows) + ".\n"
                continue
            made += (
                " {\n" + ";\n".join(f"  {name}_{each} : {type}" for each, type in rows) + " }.\n"
            )
            for each in [each for each, _ in rows if not given]:
                if each in fields:
                    raise Unread(f"a second field {each}")
                fields[each] = f"{name}_{each}"
        elif sign:
            equations = []
            while left and re.match(rf"{sign[1]}\s", left[0]):
                equations.append(left.pop(0))
            made += function(sign[1], sign[2], equations, is_local)
            names.add(sign[1])
        else:
            raise Unread(block)
    return made, names


print("From SecondOpinion Require Import Prelude.")
print('Set Warnings "-unused-pattern-matching-variable".')
for name in NAMES:
    try:
        text = (Path(sys.argv[1]) / f"{name}.antt").read_text(encoding="utf-8")
        made, known[f"race_model.specs.{name}"] = definitions(text)
    except (Unread, KeyError, IndexError, TypeError, ValueError) as error:
        sys.exit(f"{name}.antt: can't be read: {error}")
    print(f"\n(** {name}.antt *)\n\n{made}", end="")
