#!/usr/bin/env python3
"""Lists the places in src/ that an older form of Rattle may have shaped.

    python3 tools/places.py [POINT ..]

goes over crates/*/src and prints, for each point of docs/DESIGN-PASS.md, a line
for each place and then how many there are. A place is found by its text alone:
the page says of each whether it was changed or why it stays.
"""
import collections
import glob
import re
import sys

FN = re.compile(r"^(?P<indent> *)(pub(\([a-z]+\))? )?(extern \"C\" )?fn (?P<name>\w+)", re.M)


def sources():
    for path in sorted(glob.glob("crates/*/src/**/*.rt", recursive=True)):
        with open(path, encoding="utf-8") as file:
            yield path, file.read()


def line_of(text, at):
    return text.count("\n", 0, at) + 1


def bracket(text, at, opening, closing):
    """The end of the bracket that opens at or after a place."""
    at = text.index(opening, at)
    depth = 0
    for end in range(at, len(text)):
        depth += (text[end] == opening) - (text[end] == closing)
        if depth == 0:
            return at, end + 1
    return at, len(text)


def strip(text):
    text = re.sub(r"//[^\n]*", lambda m: " " * len(m.group()), text)
    return text


class Function:
    """A function of a file: its parameters, its clauses, its result and its body."""

    def __init__(self, path, text, match):
        self.path, self.name = path, match.group("name")
        self.line = line_of(text, match.start())
        start, end = bracket(text, match.end(), "(", ")")
        self.params = text[start + 1 : end - 1]
        brace = re.compile(r"^" + match.group("indent") + r"\{|\{\n", re.M)
        found = brace.search(text, end)
        semi = text.find(";\n", end)
        if found is None or (0 <= semi < found.start() and "requires" not in text[end:semi] and "ensures" not in text[end:semi]):
            self.head, self.body = text[end : semi if semi >= 0 else len(text)], ""
            return
        self.head = text[end : found.start()]
        at = text.index("{", found.start())
        self.body = text[at : bracket(text, at, "{", "}")[1]]

    def result(self):
        found = re.match(r"\s*->\s*([^\n{]+)", self.head)
        return found.group(1).strip() if found else ""

    def clauses(self):
        found = []
        for kind in re.finditer(r"\b(requires|ensures)\b( \w+)? \{", self.head):
            start, end = bracket(self.head, kind.end() - 1, "{", "}")
            found.append((kind.group(1), " ".join(self.head[start + 1 : end - 1].split())))
        return found

    def names(self):
        """Its parameters by name and type, the receiver left out."""
        parts = re.split(r",(?![^<(\[]*[>)\]])", " ".join(self.params.split()))
        return [p.strip() for p in parts if ":" in p]

    def where(self):
        return f"{self.path}:{self.line}: {self.name}"


def functions():
    for path, text in sources():
        text = strip(text)
        for match in FN.finditer(text):
            yield Function(path, text, match)


def enums():
    for path, text in sources():
        text = strip(text)
        for match in re.finditer(r"^ *(pub )?enum (\w+)[^{]*\{", text, re.M):
            start, end = bracket(text, match.start(), "{", "}")
            body = text[start + 1 : end - 1]
            flat = re.sub(r"\{[^}]*\}", "{..}", body)
            variants = [v.strip() for v in re.split(r",(?![^(]*\))", flat) if v.strip()]
            yield f"{path}:{line_of(text, match.start())}", match.group(2), variants


def found_by(pattern, keep=lambda path: True):
    for path, text in sources():
        if keep(path):
            for match in re.finditer(pattern, strip(text), re.M):
                shown = " ".join(match.group().split())
                yield f"{path}:{line_of(text, match.start())}: {shown[:90]}"


def own_results():
    for where, name, variants in enums():
        if len(variants) == 2:
            yield f"{where}: enum {name}: {', '.join(variants)}"
    for f in functions():
        if f.result() == "bool" and "&mut" in f.params:
            yield f"{f.where()}: answers a bool beside a write"
        if f.result() == "Option<Refusal>":
            yield f"{f.where()}: an error in an Option"
        if re.search(r"=> (\d+,|\w+::new\(\d+,)", f.body) and re.match(r"(u8|u16|u32|Told)$", f.result()) and "self" in f.params:
            yield f"{f.where()}: numbers for kinds"
    arms = r"None => (None|Err\(|return)|Err\((_|\w+)\) => (Err\(|None)|Some\((\w+)\) => (Some\(\4\)|\w+\(.*\),$)|Ok\((\w+)\) => Ok\(\6\)"
    yield from found_by(r"^ *(" + arms + r")[^\n]*")


def twins():
    shapes = collections.defaultdict(list)
    for f in functions():
        body = re.sub(r"\"[^\"]*\"", "T", f.body)
        tokens = re.findall(r"\w+|[^\s\w]", body)
        if len(tokens) < 22:
            continue
        words = {}
        shape = [words.setdefault(t, f"w{len(words)}") if re.match(r"\w", t) and not re.match(r"(for|if|else|match|let|mut|in|return|while|Some|None|Ok|Err|self|true|false)$", t) else t for t in tokens]
        shapes[(f.path.split("/")[1], " ".join(shape))].append(f)
    for (crate, _), same in sorted(shapes.items()):
        if len(same) > 1:
            yield f"crate {crate}: " + ", ".join(f.where() for f in same)
    for path, text in sources():
        for match in re.finditer(r"macro_rules! (\w+)", text):
            yield f"{path}:{line_of(text, match.start())}: macro {match.group(1)} writes a body for each type"
    names = collections.defaultdict(list)
    for f in functions():
        key = re.sub(r"(32|64|_most|_watched|_priced|_file|_text|_image|_certify|_place)$", "", f.name)
        names[(f.path.split("/")[1], key)].append(f)
    for (crate, key), same in sorted(names.items()):
        if len({f.name for f in same}) > 1:
            yield f"crate {crate}, by name: " + ", ".join(f.where() for f in same)


def loops():
    yield from found_by(r"^ *(while |loop \{|for \w+ in \(?[\w]+\.\.)[^\n]*")


def written_by_hand():
    yield from found_by(r"^ *impl[^\n]* (PartialEq|Eq|PartialOrd|Ord|Clone|Copy|Debug|Default|Hash|From<[^\n]*|TryFrom<[^\n]*|Display) for [^\n]*")
    for f in functions():
        if re.search(r"&'static str|&str", f.result()) and "match" in f.body:
            yield f"{f.where()}: a text for a kind"
        if re.search(r"=> true,\s*(_|None|\w[^=\n]*) => false,|=> false,\s*(_|\w[^=\n]*) => true,|matches!\(\w[\w.]*, Some\(_\)\)", f.body):
            yield f"{f.where()}: a test spelled out"
        if re.match(r"\s*\{\s*match \w+ \{", f.body) and re.match(r"Option<\w+>|u8|u32|usize", f.result()) and len(re.findall(r"=>", f.body)) > 2 and "self" not in f.params:
            yield f"{f.where()}: a conversion"


def repeated():
    facts = collections.defaultdict(list)
    groups = collections.defaultdict(list)
    for f in functions():
        crate = f.path.split("/")[1]
        for kind, fact in f.clauses():
            if kind == "requires":
                fact = re.sub(r"\b(\w+)\.(old|now|new)\b", r"\1", fact)
                facts[(crate, fact)].append(f)
        names = f.names()
        for a in range(len(names)):
            for b in range(a + 1, len(names)):
                groups[(crate, names[a], names[b])].append(f)
    for (crate, fact), where in sorted(facts.items()):
        if len(where) > 2:
            yield f"crate {crate}, required by {len(where)}: {fact}"
    for (crate, a, b), where in sorted(groups.items()):
        if len(where) > 2:
            yield f"crate {crate}, together in {len(where)}: {a}, {b}"


def buffers():
    yield from found_by(r"\[[\w<>]+; (\d{2,}|[A-Z_]+)\]", lambda path: "_tests/" not in path and "/tests" not in path)
    yield from found_by(r"^ *(pub(\([a-z]+\))? )?(count|len|logged|used): \w+,")


def switches():
    for path, text in sources():
        text = strip(text)
        for match in re.finditer(r"^ *(pub )?trait (\w+)[^{]*\{", text, re.M):
            start, end = bracket(text, match.start(), "{", "}")
            body = text[start:end]
            if len(re.findall(r"\bfn ", body)) == 1 and "ghost" not in body:
                yield f"{path}:{line_of(text, match.start())}: trait {match.group(2)} is a callback"
    yield from found_by(r": (&mut |&)?(dyn |fn\()[^\n]*")
    for f in functions():
        calls = re.findall(r"=> \w+::\w+\(self\.\w+\(|=> self\.\w+\(", f.body)
        if len(calls) > 2:
            yield f"{f.where()}: runs one of {len(calls)} steps"


def proofs():
    for crate in sorted(glob.glob("crates/*")):
        lines = 0
        for path in glob.glob(crate + "/proofs/**/*.antt", recursive=True):
            with open(path, encoding="utf-8") as file:
                lines += len(file.read().splitlines())
        if lines:
            yield f"{crate}: {lines} lines of proof"


POINTS = {
    "1": ("results, flags and codes of our own", own_results),
    "2": ("twins", twins),
    "3": ("loops over a counted index", loops),
    "4": ("equality, order, conversion and printing by hand", written_by_hand),
    "5": ("repeated facts, parameters that travel together", repeated),
    "6": ("buffers, arrays and lengths", buffers),
    "7": ("switches on the step to run, callbacks", switches),
    "8": ("proofs", proofs),
}


def main():
    for point in sys.argv[1:] or POINTS:
        title, find = POINTS[point]
        places = sorted(set(find()))
        print(f"== {point}. {title}")
        for place in places:
            print("  " + place)
        print(f"  -- {len(places)} places")


main()
