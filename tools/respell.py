#!/usr/bin/env python3
"""Brings the repository's own names of specs/ and proofs/ to the spelling of today's Rattle.

Run once, at the top, after the toolchain's port.py: definitions, lemmas, fields and constructors
get snake case, types and facts upper camel case, also in clauses, must-fail edits and the pages.
Names of src/, strings, inputs and outputs stay as they are.
"""
import collections
import glob
import re
import sys

CRATES = "ranges states paper words events analysis text woolquern woolquern_main replay certainties".split()
TOKEN = re.compile(r"[^\s(){}\[\].;,@\"`]+")
DECLARED = re.compile(r"^\s*(?:(?:abbrev|unfoldable|pub|data|record|mutual)\s+)*([^\s(){}:;]+)\s*(?:\(.*?\)\s*|\{.*?\}\s*)*:(?!=)")
NAMED = re.compile(r"^\s*(?:pub\s+)?(?:data|record)\s+(?:pub\s+)?([^\s(){}:;]+)")
# Local names: bound by `as`, by several at once, or by a pattern.
LOCAL = """loop-answer variables-used entered-by-rest seen-is checked-is reading-is printed-is pass-fine exit-fine pass-ends exit-ends body-ends
passed-names body-names rest-entered rest-names then-ends spare-end spare-deep not-limit state-laws start-laws then-here
else-here as-result code-answer answer-laws entered-else no-if no-normalize breaks-off only-job
End-at No-pass Answer-of Text-reading""".split()
# Facts that did not look like types.
FACTS = {"holds-bounded": "HoldsBounded"}
# The grammar's rules, which are types: renamed where a file takes them from Grammar.
GRAMMAR = {
    "byte": "Byte", "digit": "Digit", "many": "Many", "optional": "Optional", "blank": "Blank", "ws": "Ws",
    "begin-array": "BeginArray", "end-array": "EndArray", "value-separator": "ValueSeparator", "zero": "Zero",
    "digit1-9": "Digit1To9", "int": "Int", "number": "Number", "array": "Array",
}
SOUND = {"goes_on": "GoesOn"}


def antt_files():
    return sorted(f for c in CRATES for part in ("specs", "proofs") for f in glob.glob(f"crates/{c}/{part}/**/*.antt", recursive=True))


def spelled(name):
    if name in FACTS:
        return FACTS[name]
    if name[0].isupper():
        return "".join(part[0].upper() + part[1:] for part in name.split("-"))
    return name.replace("-", "_")


def own_names():
    names = set(LOCAL)
    for file in antt_files():
        if file.endswith("/Proof.antt"):
            continue
        for line in open(file):
            found = NAMED.match(line) or DECLARED.match(line)
            if found and "-" in found.group(1):
                names.add(found.group(1))
    return {name: spelled(name) for name in sorted(names)}


def fall_together(names):
    seen = collections.Counter()
    for file in antt_files():
        # A proof by hand names functions of src/, which a definition may share its name with.
        if file.endswith("/Proof.antt"):
            continue
        for line in open(file):
            if line.lstrip().startswith("--"):
                continue
            for token in set(TOKEN.findall(line)):
                seen[token] += 1
    back = collections.defaultdict(set)
    for old, new in names.items():
        back[new].add(old)
    return [(new, sorted(olds)) for new, olds in back.items() if len(olds) > 1 or new in seen]


def tokens(text, names):
    return TOKEN.sub(lambda m: names.get(m.group(0), m.group(0)), text)


def quoted(text, names):
    return re.sub(r"`[^`\n]*`", lambda m: tokens(m.group(0), names), text)


def respelled_antt(text, names, local):
    if re.search(r"specs\.Grammar\.\{", text):
        taken = re.search(r"specs\.Grammar\.\{([^}]*)\}", text).group(1)
        for name in (n.strip() for n in taken.split(",")):
            if name in GRAMMAR:
                local[name] = GRAMMAR[name]
    return "\n".join(quoted(line, names) if line.lstrip().startswith("--") else tokens(line, local) for line in text.split("\n"))


def respelled_code(text, names):
    """Only clauses, ghost lines and what comments quote: in code a dash is a minus."""
    lines = []
    for line in text.split("\n"):
        if line.lstrip().startswith("//"):
            line = quoted(line, names)
        else:
            line = tokens(line, names)
        lines.append(line)
    return "\n".join(lines)


def tight(text):
    """A projection is written tight."""
    text = re.sub(r"\(([\w']+(?:\.[\w']+)*) \.([\w']+)\)", r"\1.\2", text)
    return re.sub(r"(?<=[\w'\)]) \.([\w']+)", r".\1", text)


def dashed(text, names):
    """Both the names above and those that port.py gave snake case."""
    return tokens(tokens(text, names), {t: t.replace("-", "_") for t in TOKEN.findall(text) if re.search(r"[a-z]-[a-z]", t)})


def standing(text, names, whole):
    """How an edit's text is to be respelled, so that it stands once in the file as it is now; or None."""
    for respell in (lambda t: t, lambda t: tokens(t, names), lambda t: dashed(t, names), lambda t: tight(tokens(t, names)), lambda t: tight(dashed(t, names))):
        if whole.count(respell(text)) == 1:
            return lambda t: dashed(respell(t), names)
    return None


def main():
    names = own_names()
    clashes = fall_together(names)
    if clashes:
        sys.exit(f"names fall together: {clashes}")
    for file in antt_files():
        text = open(file).read()
        local = dict(names)
        if file.endswith("text/specs/Grammar.antt"):
            local.update(GRAMMAR)
        if file.endswith("text/proofs/Sound.antt"):
            local.update(SOUND)
        open(file, "w").write(respelled_antt(text, names, local))
    for crate in CRATES:
        for file in glob.glob(f"crates/{crate}/src/**/*.rt", recursive=True):
            text = open(file).read()
            open(file, "w").write(respelled_code(text, names))
    for file in sorted(glob.glob("crates/*/must-fail/*.edit")):
        lines = open(file).read().split("\n")
        target = re.match(r"file: (.*)", lines[0]).group(1)
        whole = open(re.sub(r"must-fail/.*", target, file)).read()
        local = dict(names)
        if target.endswith("Grammar.antt"):
            local.update(GRAMMAR)
        respell = lambda t: t
        for at, line in enumerate(lines):
            if line.startswith("old: "):
                respell = standing(line[5:], local, whole)
                if respell is None:
                    print(f"by hand: {file}: {line}")
                    respell = lambda t: t
                lines[at] = "old: " + respell(line[5:])
            elif line.startswith("new: "):
                lines[at] = "new: " + respell(line[5:])
        open(file, "w").write("\n".join(lines))
    for file in ["README.md", "comparison/README.md", *sorted(glob.glob("docs/*.md"))]:
        text = open(file).read()
        open(file, "w").write(quoted(text, names))
    print(f"{len(names)} names")


main()
