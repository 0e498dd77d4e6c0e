#!/usr/bin/env python3
"""Respells the repository's own definitions and lemmas as Rattle spells names: words in snake case, types and facts in camel case.

usage: python3 tools/respell.py        at the top of a repository that port.py has just turned

It goes by text, over crates/*/src, specs and proofs. A name is its own if specs/ or proofs/ define it, as a definition, a lemma, a field or a
constructor; goals' names and Rust's keep theirs. A dash stays where it joins the names of two functions, as in length-units. Strings keep their words.
"""
import glob
import re
import sys

KEEP_DASH = {
    "take-length-take", "length-unitBytes", "spelling-append", "unitBytes-append", "length-units", "getD-units", "length-atomsOf",
    "length-encodeText", "length-encodeValue", "length-encode", "textIn-encode", "valueIn-encode", "claimIn-encode", "body-append",
    "units-drop", "units-take", "length-records", "nth-take", "nth-records", "earliest-append", "faults-append",
}
PARTS = {"getD": "get_or", "ofZ": "of_z", "nth": "slice_get"}
# two names would fall together, or with a name of the library or of Rust: another name
OTHER = {
    "first-ill": "first_ill_found",
    "from-type": "from_type_read",
    "from-word": "from_word_read",
    "ill-at": "ill_at_place",
    "rule-of": "made_rule",
    "rules-faults": "rules_faults-append",
    "shown-claim": "shown_claim_is",
    "well-formed": "well_formed_passed",
    "claimIn": "one_claim_in",
    "claimIn-encode": "one_claim_in-encode",
    "hexUnit": "unit_of_hex",
    "pastText": "after_text",
    "pastValue": "after_value",
    "textSize": "size_of_text",
    "valueSize": "size_of_value",
    "valueFirst": "read_value_first",
    "valueTypeFirst": "read_value_type_first",
    "bit-and": "bit-bit_and",
    "bit-or": "bit-bit_or",
    "patternCause": "cause_of_pattern",
}

# members of traits, and names that an import gives: they stand at no definition's head
ALSO = {
    "floorOf": "floor_of",
    "capOf": "cap_of",
    "pastClaim": "past_claim",
    "mistakeWords": "mistake_words",
    "isSpecial": "is_special",
    "stopsAt": "stops_at",
    "simpleAt": "simple_at",
    "escapedAt": "escape_at",
}

HEAD = re.compile(r"\s*(?:(?:abbrev|unfoldable|pub) )*(record |data )?([^\s(){}\[\];,:.|=]+)\s*(?:\{[^}]*\}\s*|\([^)]*\)\s*)*:\s(.*)")
NAME = r"(?<![\w'\-◌])({})(?![\w'\-◌])"


def snake(part):
    if part in PARTS:
        return PARTS[part]
    return re.sub(r"(?<=[a-z0-9])(?=[A-Z])", "_", part).lower()


def upper(part):
    return part[:1].upper() + part[1:]


def definitions():
    """Each name that is defined: where, whether it is a type or a fact, and whether it answers a goal."""
    found = {}
    for f in sorted(glob.glob("crates/*/specs/**/*.antt", recursive=True) + glob.glob("crates/*/proofs/**/*.antt", recursive=True)):
        with open(f, encoding="utf-8") as text:
            for line in text:
                m = HEAD.match(line)
                if not m or m.group(2) in ("let", "where", "module", "use"):
                    continue
                kind, name, typ = m.groups()
                fact = bool(kind) or bool(re.search(r"Type 0$", typ.strip()))
                goal = typ.startswith("goal.")
                was = found.get(name)
                found[name] = (f, fact or bool(was and was[1]), goal or bool(was and was[2]))
    return found


def respelled(name, fact):
    if name in OTHER:
        return OTHER[name]
    parts = name.split("-")
    if name[:1].isupper():
        return "".join(upper(p) for p in parts)
    return ("-" if name in KEEP_DASH else "_").join(snake(p) for p in parts)


def library():
    """The names that files take from the library: they keep their spelling."""
    names = set()
    for f in sources():
        with open(f, encoding="utf-8") as text:
            for items in re.findall(r"use Rattle\.(?:std|core)[\w.]*\.\{([^}]*)\}", text.read()):
                names |= {re.split(r" as ", i.strip())[0] for i in items.split(",")}
    return names


def table():
    turn = dict(ALSO)
    theirs = library()
    for name, (f, fact, goal) in definitions().items():
        if goal or name in theirs or not re.match(r"[A-Za-z]", name):
            continue
        if name not in OTHER and "-" not in name and (name[:1].isupper() or not re.search(r"[A-Z]", name)):
            continue
        new = respelled(name, fact)
        if new != name:
            turn[name] = new
    return turn


def sources():
    for kind in ("src/**/*.rt", "specs/**/*.antt", "proofs/**/*.antt"):
        yield from sorted(glob.glob("crates/*/" + kind, recursive=True))


def outside_strings(line, turned):
    return "".join(p if i % 2 else turned(p) for i, p in enumerate(re.split(r'("(?:[^"\\]|\\.)*")', line)))


def main():
    turn = table()
    files = {f: open(f, encoding="utf-8").read() for f in sources()}
    bad = 0
    by_new = {}
    for old, new in turn.items():
        by_new.setdefault(new, []).append(old)
    for new, olds in sorted(by_new.items()):
        if len(olds) > 1:
            print(f"fall together: {' '.join(olds)} -> {new}")
            bad += 1
        pattern, was = re.compile(NAME.format(re.escape(new))), re.compile(NAME.format(re.escape(olds[0])))
        had = [f for f, t in files.items() if pattern.search(t) and was.search(re.sub(r"(//|-- ).*", "", t))]
        for f in had:
            print(f"there already: {olds[0]} -> {new}: {f}")
            bad += 1
    if "--table" in sys.argv:
        for old, new in turn.items():
            print(f"{old} {new}")
        return
    if bad and "--force" not in sys.argv:
        sys.exit("respell: nothing was written")
    one = re.compile(NAME.format("|".join(re.escape(n) for n in sorted(turn, key=len, reverse=True))))

    # a comment names productions and words of the field with a dash; only definitions in camel case are respelled there
    comment = re.compile(NAME.format("|".join(re.escape(n) for n in sorted(turn, key=len, reverse=True) if "-" not in n)))

    def turned(text):
        # a step or a variable of a goal, `c.x`, `g.x`, `l.x`, is not ours
        return one.sub(lambda m: m.group(1) if re.search(r"(?<![\w'.\-])[cgl]\.$", text[: m.start()]) else turn[m.group(1)], text)

    for f, text in files.items():
        out = []
        for line in text.split("\n"):
            code, mark, said = line.partition("//" if f.endswith(".rt") else "-- ")
            code = outside_strings(code, turned) if f.endswith(".rt") else turned(code)
            out.append(code + mark + comment.sub(lambda m: turn[m.group(1)], said))
        new = "\n".join(out)
        if new != text:
            with open(f, "w", encoding="utf-8") as to:
                to.write(new)
    print(f"respell: {len(turn)} names")


main()
