#!/usr/bin/env python3
"""Counts the places in crates/*/src where an older form of the language may stand.

    python3 tools/count-places.py [FOLDER] [--list]

FOLDER is a checkout (default: this one). Each count is of places to look at; docs/DESIGN-PASS.md says
what became of each. --list prints every place with its file and line.
"""
import collections
import glob
import os
import re
import sys

# name -> (point, expression over one line of source, what it finds)
LINES = {
    "1a own None or refusal": r"^\s+(None|Nothing|NoAnswer|Refused\(.*\)|Vacant|Full),$",
    "1b number in place of a value": r"\b(u32|usize)::MAX\b(?!\))|=> 36\b|=> 0,$",
    "1c flag or number beside a value": r"->\s*\(?(bool|u32|usize), (bool|u32|usize|\w+)\)",
    "1d match that hands None or Err on": r"^\s*(None => None|Some\((\w+)\) => Some\(\2\)|Err\(\w+\) => Err\(|None => Err\(|Ok\((\w+)\) => Ok\(\3\)|Ok\(\(\)\) => Ok\(\(\)\))",
    "3a loop that counts": r"^\s*while ",
    "3b range that indexes": r"^\s*for \w+ in .*\.\.",
    "4a words by a function": r"-> &'static str",
    "4b number to a kind by hand": r"^\s*(pub(\(crate\))? )?fn (numbered|channel_numbered|kind)\(",
    "4c error made by hand": r"Err\(_\) => (Err|return Err)\(|Err\(AllocError\)",
    "6a length beside a slice": r"\b(depth|len|count|members|devices): (usize|u32)\b.*",
    "6b offsets into a text": r"\b(from|to|start|end|starts): usize|Option<usize>",
    "7a step chosen by an enum": r"\b(Sweep|Run|FlagName)\b.*(how|run|kind|Run|Sweep)",
}
PLAIN_DERIVES = re.compile(r"#\[derive\(Clone, Copy\)\]\s*\n(?:pub(?:\(crate\))? )?(?:struct|enum) (\w+)")


def sources(top):
    for path in sorted(glob.glob(os.path.join(top, "crates/*/src/*.rt"))):
        with open(path) as file:
            yield os.path.relpath(path, top), file.read()


def by_lines(texts):
    for name, expression in LINES.items():
        found = []
        for path, text in texts:
            for number, line in enumerate(text.split("\n"), 1):
                if re.search(expression, line) and not line.lstrip().startswith("//"):
                    found.append(f"{path}:{number}: {line.strip()}")
        yield name, found


def functions(texts):
    head = re.compile(r"^\s*(?:pub(?:\(crate\))? )?(?:const )?fn (\w+)(?:<[^(]*>)?\(", re.M)
    for path, text in texts:
        for match in head.finditer(text):
            depth, at = 1, match.end()
            while depth and at < len(text):
                depth += {"(": 1, ")": -1}.get(text[at], 0)
                at += 1
            body = text.index("{", at) if "{" in text[at:] else len(text)
            yield path, text[: match.start()].count("\n") + 2, match.group(1), text[match.end() : at - 1]


def travelling(texts):
    """Pairs of parameters that stand together, of the same name and type, in three functions or more."""
    places = collections.defaultdict(list)
    for path, line, name, parameters in functions(texts):
        parts = [re.sub(r"'\w+ ", "", p.strip()) for p in re.split(r",\s*(?![^<]*>)", parameters)]
        parts = sorted({p for p in parts if ":" in p})
        for i, one in enumerate(parts):
            for other in parts[i + 1 :]:
                places[one + " + " + other].append(f"{path}:{line}: {name}")
    return {pair: at for pair, at in places.items() if len(at) >= 3}


def repeated_requires(texts):
    places = collections.defaultdict(list)
    for path, text in texts:
        for number, line in enumerate(text.split("\n"), 1):
            match = re.match(r"\s*requires (?:\w+ )?\{ (.*) \}$", line)
            if match:
                for fact in re.split(r" × ", match.group(1)):
                    fact = re.sub(r"\b\w+(\.\w+)* < ", "_ < ", fact.strip("() "))
                    fact = re.sub(r"\.(old|now)\b", "", fact)
                    places[fact].append(f"{path}:{number}")
    return {fact: at for fact, at in places.items() if len(at) >= 3}


def lines_of(top, pattern):
    return sum(open(p).read().count("\n") for p in glob.glob(os.path.join(top, pattern), recursive=True) if "/out/" not in p)


def main():
    args = [a for a in sys.argv[1:] if a != "--list"]
    full = "--list" in sys.argv
    top = args[0] if args else os.path.dirname(os.path.dirname(os.path.abspath(__file__)))
    texts = list(sources(top))
    for name, found in by_lines(texts):
        print(f"{name}: {len(found)}")
        if full:
            print("\n".join("    " + f for f in found))
    plain = [f"{path}: {m.group(1)}" for path, text in texts for m in PLAIN_DERIVES.finditer(text)]
    print(f"4d plain type that derives no equality: {len(plain)}")
    if full:
        print("\n".join("    " + p for p in plain))
    for title, found in (("5a parameters that travel together", travelling(texts)), ("5b requirement in three functions or more", repeated_requires(texts))):
        print(f"{title}: {len(found)} in {sum(len(v) for v in found.values())} functions")
        for what, at in sorted(found.items(), key=lambda x: -len(x[1])):
            print(f"    {len(at)}  {what}")
            if full:
                print("\n".join("        " + a for a in at))
    answers = lines_of(top, "crates/*/proofs/**/Answers.antt") + lines_of(top, "crates/*/proofs/**/Invariants.antt")
    proofs = lines_of(top, "crates/*/proofs/**/*.antt")
    print(f"8a lines of answers and invariants: {answers}")
    print(f"8b lines of lemmas: {proofs - answers}")


main()
