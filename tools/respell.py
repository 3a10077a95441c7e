#!/usr/bin/env python3
"""Brings the names of this repository's own definitions, lemmas, fields and constructors to snake case: lengthFits to length_fits, send-others to
send_others. It goes by words, over crates/ (and the other trees named on the command line), and prints each name that it turned.

usage: python3 tools/respell.py [FOLDER..]              at the top of the repository, once, after port.py
       python3 tools/respell.py --rest [FOLDER..]       in a tree that it turned before: only names that are still to be turned

A name is ours where specs/ or proofs/ declares it. What the library declares, what Rattle makes (loop-x-preserved), what src/ declares, strings, and
types and modules keep their names.
"""
import os
import re
import sys

STOP = r"\s(){}\[\],;.`\"⌜⌝"
WORD = re.compile(rf"[^{STOP}]+")
DECLARED = re.compile(r"^ *(?:(?:abbrev|unfoldable|pub|record|data)\s+)*([^\s(){}\[\],;.:]+)(?:\s+[({][^=]*?[)}])*\s+:\s+(\S*)")
CAMEL = re.compile(r"[a-z][a-z0-9_]*[A-Z][\w'₀-₉?]*")
DASHED = re.compile(r"[^-]+(-[^-]+)+")

# A definition and the lemma about it, whose names would fall together: the lemma's ends with _lem. The first are lemmas that are in snake case already.
LEMMAS = {"by_bits", "in_order", "in_use", "no_number", "open_done", "read_done", "read_number", "read_one", "take_done"}
APART = {
    w: w.replace("-", "_") + "_lem"
    for w in (
        "all-free bad-line close-done close-refused close-room close-seen fin-received header-length lowest-free no-syn on-way open-answer "
        "open-number open-packet open-refused open-seen packet-length read-refused read-seen send-done send-refused send-room send-seen take-fault "
        "take-number take-refused take-seen up-after values-of close-answer close-number close-packet read-ack read-payload send-number send-packet "
        "taken-answer taken-storage"
    ).split()
}
# Words of paths and fields: a definition may have the same name.
PATHS = {"is_open", "is_read", "is_right", "up_word", "payload_length"}


def texts(folder, ends):
    for at, folders, files in os.walk(folder):
        folders[:] = sorted(f for f in folders if f not in ("out", "target", ".git"))
        for f in sorted(files):
            if f.endswith(ends):
                yield os.path.join(at, f)


def read(path):
    with open(path, encoding="utf-8") as f:
        return f.read()


def is_spelled_otherwise(name):
    return bool(CAMEL.fullmatch(name)) or bool(DASHED.fullmatch(name))


def turned(name):
    parts = name.split("-")
    out = []
    for p in parts:
        if CAMEL.fullmatch(p):
            p = re.sub(r"(?<=[a-z0-9])([A-Z])", lambda m: "_" + m.group(1).lower(), p)
        out.append(p)
    return APART.get(name, "_".join(out))


def is_made(path, kind):
    """A goal that Rattle names, answered in a function's own proof."""
    return kind.startswith(("tie.", "goal.", "given."))


def is_of_function(path):
    return os.path.basename(path) in ("Proof.antt", "Answers.antt", "Invariants.antt")


def own_names():
    ours, made, foreign, every = {}, set(), set(), set()
    for path in texts("crates", (".antt",)):
        text = read(path)
        for line in text.splitlines():
            m = re.match(r"use ([\w.]+?)\.?\{(.*)\}", line)
            if m and not re.match(r"Rattle\.(?!std\b)", m.group(1)):
                foreign |= {w.strip().split(" as ")[0] for w in m.group(2).split(",")}
            if line.lstrip().startswith(("--", "use ", "pub use ")):
                continue
            every |= set(WORD.findall(line))
            m = DECLARED.match(line)
            if m and is_spelled_otherwise(m.group(1)):
                if is_made(path, m.group(2)):
                    made.add(m.group(1))
                else:
                    ours.setdefault(m.group(1), set()).add(path)
    return ours, made, foreign, every


def words_of_src():
    out = set()
    for path in texts("crates", (".rt",)):
        out |= set(re.findall(r"\b(?:fn|struct|enum|mod|const|static|trait|type)\s+(\w+)", read(path)))
    return out


def rename(text, names, dashed, lemmas=()):
    def one(m):
        w = m.group(0)
        if w in lemmas:
            return w if text[m.start() - 1 : m.start()] == "." or text[m.end() : m.end() + 1] == "." else w + "_lem"
        if w in names and (dashed or "-" not in w):
            return names[w]
        return w

    return WORD.sub(one, text)


def turn_antt(text, names):
    out = []
    for line in text.split("\n"):
        code, mark, rest = line.partition("--") if line.lstrip().startswith("--") else (line, "", "")
        out.append(rename(code, names, True, LEMMAS) + mark + rename(rest, names, False))
    return "\n".join(out)


def turn_rt(text, names):
    out = []
    for line in text.split("\n"):
        if line.lstrip().startswith("//"):
            out.append(rename(line, names, False))
            continue
        parts = re.split(r'("(?:[^"\\]|\\.)*")', line)
        out.append("".join(p if i % 2 else rename(p, names, True) for i, p in enumerate(parts)))
    return "\n".join(out)


def main(folders):
    if folders[:1] == ["--rest"]:
        folders = folders[1:]
        LEMMAS.clear()
    ours, made, foreign, every = own_names()
    names = {}
    for w in sorted(ours):
        if w in foreign:
            print(f"respell: left: {w}, which a library has too, in {' '.join(sorted(ours[w]))}")
        elif w in made and all(is_of_function(p) for p in ours[w]):
            continue
        elif turned(w) != w:
            names[w] = turned(w)
    back = {}
    for w, t in names.items():
        back.setdefault(t, []).append(w)
    src = words_of_src()
    bad = 0
    for t, ws in sorted(back.items()):
        if len(ws) > 1 or t in every - LEMMAS - PATHS - set(APART.values()) or t in foreign:
            print(f"respell: together: {' '.join(ws)} -> {t}" + (" (stands already)" if t in every else "") + (" (library)" if t in foreign else ""))
            bad += 1
    if bad:
        print(f"respell: {bad} names fall together; nothing was written")
        return 1
    n = 0
    for folder in folders or ["crates"]:
        for path in texts(folder, (".antt", ".rt", ".edit", ".run", ".unseen")):
            text = read(path)
            new = turn_antt(text, names) if path.endswith(".antt") else turn_rt(text, names)
            if new != text:
                with open(path, "w", encoding="utf-8") as f:
                    f.write(new)
                n += 1
    for w, t in sorted(names.items()):
        print(f"{w} {t}")
    print(f"respell: {len(names)} names, {n} files")
    return 0


if __name__ == "__main__":
    raise SystemExit(main(sys.argv[1:]))
