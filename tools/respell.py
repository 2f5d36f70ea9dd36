#!/usr/bin/env python3
"""Brings the repository's own definitions and lemmas to the spelling of the language: snake case, types in camel case.

usage: tools/respell.py [--dry]     at the top of the repository, once

Names are those that files of specs/ and proofs/ declare (not the proof of one function, which is written for its goals).
A name that another library declares too, as a lemma on lists, keeps its dash. Functions of src/, exported C names, strings,
inputs and outputs are not touched. Two names of one file that would fall together stop the run.
"""
import collections
import glob
import re
import sys

DECLARED = re.compile(
    r"^(?:(?:abbrev|unfoldable|mutual|pub) )*(?P<word>record |data |ruleset )?(?P<name>[^\s(){}\[\]:;,@«»]+)"
    r"(?P<args>(?: [({][^\n]*?)?) (?::(?!:)(?P<type>.*)|=.*)$"
)
# A lemma of a section or of a `where`.
INNER = re.compile(r"^ +(?:pub )?([a-z][^\s(){}\[\]:;,«»]*) :(?!:)")
FIELD = re.compile(r"^ +(?:pub )?([^\s(){}\[\]:;,«»]+) :(?!:)")
TOKEN = re.compile(r"[^\s(){}\[\]:;,.@«»`\"⌜⌝|]+")
PLAIN = re.compile(r"[A-Za-z0-9_'₀-₉-]+")
OTHERS = re.compile(r"^\s*(?:pub )?use (?!Rattle\.(?:%s)\.)[^{\n]*\{([^}]*)\}", re.M)


# Constructors of the calls and of what a node is told: their names in small letters are those of functions of src/, and `open` is a keyword.
KEPT = {"Close", "Open", "Received", "Send", "Tick", "R"}
# The rows and states of the transition table are spelled as SUBSET-057 prints them.
# Names that no file of specs/ or proofs/ declares, of fields of src/ and of what Rattle makes.
TAKEN = {"sent_at", "received_at", "idle_time", "own", "partner"}
# In these crates the three are data of a call, a receipt and a telegram, beside the fields of a record, and no facts of them.
OF_CALLS = {"sent_at_holds": "sent_at", "received_at_holds": "received_at", "idle_time_holds": "idle_time"}
CALLING = ("crates/demands/", "crates/echo/", "crates/worked/", "crates/wrong/")


def crates():
    with open("crates.txt", encoding="utf-8") as it:
        return [line.split(":")[0].split()[0] for line in it if ":" in line and not line.startswith("#")]


def snake(name):
    name = name.replace("-", "_")
    name = re.sub(r"(?<=[A-Z])([A-Z])(?=[a-z])", r"_\1", name)
    return re.sub(r"(?<=[a-z0-9'])([A-Z])", r"_\1", name).lower() if not name.isupper() else name


def camel(name):
    head, *rest = re.split(r"[-_]", name)
    return head[:1].upper() + head[1:] + "".join(it[:1].upper() + it[1:] for it in rest)


def declared(files):
    """Returns what each name is, type or word, by the files that declare it."""
    kinds, places = collections.defaultdict(set), collections.defaultdict(set)
    for file in files:
        inside = ""
        for line in open(file, encoding="utf-8"):
            line = line.rstrip("\n")
            if not line or line.lstrip().startswith("--") or re.match(r"(pub )?use ", line):
                continue
            if line[0] != " ":
                m = DECLARED.match(line)
                inside = ""
                if m:
                    word = (m["word"] or "").strip()
                    ty = m["type"] or ""
                    is_type = word in ("record", "data") or re.search(r"(^|→ |\s)Type \S+\s*(where)?$", ty)
                    if m["type"] is None and not word:
                        continue
                    kinds[m["name"]].add("type" if is_type else "word")
                    places[m["name"]].add(file)
                    inside = word if word in ("record", "data") else ""
                elif re.match(r"(abbrev |unfoldable |pub )*record |(abbrev |pub )*data ", line):
                    inside = "record" if "record" in line else "data"
            elif not inside:
                m = INNER.match(line)
                if m and PLAIN.fullmatch(m[1]) and re.search("[-A-Z]", m[1]):
                    kinds[m[1]].add("word")
                    places[m[1]].add(file)
            elif inside:
                m = FIELD.match(line)
                if m and PLAIN.fullmatch(m[1]):
                    kinds[m[1]].add("word")
                    places[m[1]].add(file)
    return kinds, places


def main():
    dry = "--dry" in sys.argv[1:]
    names = crates()
    everything = sorted(glob.glob("crates/*/specs/**/*.antt", recursive=True) + glob.glob("crates/*/proofs/**/*.antt", recursive=True))
    function = re.compile(r"/proofs/.*/(Proof|Answers|Invariants)\.antt$")
    shared = [it for it in everything if not function.search(it)]
    kinds, places = declared(shared)
    # What other libraries declare under the same name.
    others = set()
    used = re.compile(OTHERS.pattern % "|".join(map(re.escape, names)), re.M)
    for file in everything + sorted(glob.glob("crates/*/src/**/*.rt", recursive=True)):
        text = open(file, encoding="utf-8").read()
        for m in re.finditer(r"(?:ghost |pub )*use ([\w·.]+)\.\{([^}]*)\}", text):
            if not re.match(r"Rattle\.(%s)\." % "|".join(map(re.escape, names)), m[1]):
                others |= {re.split(r"\s+as\s+", it.strip())[0] for it in m[2].split(",")}
    new = {}
    for name, kind in kinds.items():
        if not PLAIN.fullmatch(name) or name in others or name in KEPT or len(name) == 1:
            continue
        to = camel(name) if kind == {"type"} and name[0].isupper() else snake(name) if kind == {"word"} else name
        if kind == {"type", "word"}:
            print("both a type and a word:", name, sorted(places[name]))
        if to != name:
            new[name] = to
    # A name with a dash that would fall together with a definition's says that the definition holds.
    taken = {it for it in kinds if it not in new} | TAKEN
    taken |= {to for name, to in new.items() if "-" not in name}
    for name, to in new.items():
        if "-" in name and to in taken:
            new[name] = to + ("Holds" if name[0].isupper() else "_holds")
            print("would fall together:", name, "->", new[name])
    twice = collections.Counter(new.values())
    print("twice:", [(a, b) for a, b in new.items() if twice[b] > 1])
    kept = sorted(it for it in kinds if "-" in it and it not in new)
    print(len(new), "names;", "kept, since another library has them:", kept)
    reserved = {"open", "data", "record", "module", "package", "use", "type", "in", "let", "elim", "infix"}
    bad = [it for it in new.values() if it in reserved]
    print("reserved:", bad)
    if "--list" in sys.argv:
        for k in sorted(new):
            print("  ", k, "->", new[k])
    report = []

    def respelled(text, file):
        seen = collections.defaultdict(set)

        def one(m):
            word = m[0]
            to = new.get(word, word)
            if file.startswith(CALLING):
                to = OF_CALLS.get(to, to)
            if PLAIN.fullmatch(word):
                seen[to].add(word)
            return to

        out = TOKEN.sub(one, text)
        for to, froms in seen.items():
            if len(froms) > 1:
                report.append((file, to, sorted(froms)))
        return out

    def in_backquotes(text):
        return re.sub(r"`[^`\n]+`", lambda m: TOKEN.sub(lambda w: new.get(w[0], w[0]), m[0]), text)

    def antt(text, file):
        # code and comments apart
        lines, code, whole = text.split("\n"), [], []
        for line in lines:
            m = re.match(r"^(.*?)((?:^|\s)-- .*)$", line)
            code.append(m[1] if m else line)
            whole.append(in_backquotes(m[2]) if m else "")
        joined = respelled("\n".join(code), file).split("\n")
        return "\n".join(a + b for a, b in zip(joined, whole))

    def rattle(text, file):
        out, inside, depth = [], False, 0
        for line in text.split("\n"):
            stripped = line.strip()
            if stripped.startswith("//"):
                out.append(in_backquotes(line))
                continue
            if not inside and re.match(r"(pub )?(ghost use|requires|ensures|invariant|decreases|ghost )", stripped):
                inside, depth = True, 0
            if inside:
                depth += line.count("{") - line.count("}")
                out.append(respelled(line, file))
                if depth <= 0 and (stripped.endswith("}") or stripped.endswith(";") or stripped.endswith("},")):
                    inside = False
            else:
                out.append(in_backquotes(line) if "//" in line else line)
        return "\n".join(out)

    def edit(text, file):
        out, path = [], ""
        for line in text.split("\n"):
            if line.startswith("file: "):
                path = line[6:].strip()
            elif line.startswith("at: "):
                line = TOKEN.sub(lambda w: new.get(w[0], w[0]), line)
            elif line.startswith(("old:", "new:")) and path.endswith(".antt"):
                line = TOKEN.sub(lambda w: new.get(w[0], w[0]), line)
            elif line.startswith(("old:", "new:")) and re.search(r"requires|ensures", line):
                line = TOKEN.sub(lambda w: new.get(w[0], w[0]), line)
            elif line.startswith("wrong: "):
                line = in_backquotes(line)
            out.append(line)
        return "\n".join(out)

    changed = 0
    jobs = [(it, antt) for it in everything]
    jobs += [(it, rattle) for it in sorted(glob.glob("crates/*/src/**/*.rt", recursive=True))]
    jobs += [(it, edit) for it in sorted(glob.glob("crates/*/must-fail/*.edit"))]
    pages = ["README.md", "CONTRIBUTING.md"] + sorted(glob.glob("docs/**/*.md", recursive=True))
    jobs += [(it, lambda text, file: in_backquotes(text)) for it in pages]
    for file, how in jobs:
        text = open(file, encoding="utf-8").read()
        after = how(text, file)
        if after != text:
            changed += 1
            if not dry:
                open(file, "w", encoding="utf-8").write(after)
    for file, to, froms in report:
        print(f"fall together in {file}: {froms} -> {to}")
    print(changed, "files", "would change" if dry else "changed")


main()
