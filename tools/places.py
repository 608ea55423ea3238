#!/usr/bin/env python3
"""Counts the places of docs/DESIGN-PASS.md, in the work tree or, with a commit as argument, in that.

Each line printed is a candidate that has to be read: the page says what became of it.
"""
import collections
import itertools
import pathlib
import re
import subprocess
import sys


def sources(commit):
    """The path and the text of each source of the crates."""
    if commit is None:
        for path in sorted(pathlib.Path("crates").glob("*/src/**/*.rt")):
            yield str(path), path.read_text()
        return
    names = subprocess.run(["git", "ls-tree", "-r", "--name-only", commit, "crates"], capture_output=True, text=True, check=True)
    for name in names.stdout.split("\n"):
        if re.fullmatch(r"crates/\w+/src/.*\.rt", name):
            yield name, subprocess.run(["git", "show", f"{commit}:{name}"], capture_output=True, text=True, check=True).stdout


def functions(text):
    """Name, parameters, clauses and body of each function, told by its indent."""
    lines = text.split("\n")
    for i, line in enumerate(lines):
        head = re.match(r"(\s*)(?:pub(?:\(crate\))? )?(?:extern \"C\" )?fn (\w+)", line)
        if not head:
            continue
        indent = head.group(1)
        signature = []
        j = i
        while not re.search(r"(\{|;)$", lines[j].rstrip()) or (re.match(r"\s*(requires|ensures)", lines[j]) and not lines[j].rstrip().endswith(";")):
            signature.append(lines[j])
            j += 1
            if j == len(lines):
                break
        if j < len(lines):
            signature.append(lines[j])
        body = []
        k = j + 1
        while k < len(lines) and lines[k] != indent + "}":
            body.append(lines[k])
            k += 1
        whole = " ".join(s.strip() for s in signature if not re.match(r"\s*(requires|ensures)", s))
        clauses = [s.strip() for s in signature if re.match(r"\s*(requires|ensures)", s)]
        inside = re.search(r"\((.*)\)", whole.split(" -> ")[0])
        parameters = [p.strip() for p in re.split(r",(?![^<\[]*[>\]])", inside.group(1))] if inside else []
        yield head.group(2), [p for p in parameters if p], clauses, body


def shape(body):
    """The body without its names and numbers."""
    text = re.sub(r"//.*", "", " ".join(body))
    text = re.sub(r"\b(?!(?:if|else|for|in|while|loop|match|return|let|mut|true|false|Some|None|Ok|Err)\b)[A-Za-z_]\w*\b", "x", text)
    text = re.sub(r"\b\d[\d_]*(?:u8|u16|u32|u64|usize)?\b", "0", text)
    return re.sub(r"\s+", " ", text).strip()


PATTERNS = {
    "1": [r"^\s*(pub(\(crate\))? )?enum \w+", r"\bnumber: \d+,", r"=> \d+,", r"-> \(bool,", r"\b(strict|loose): bool"],
    "3": [r"\bwhile\b", r"\bloop \{", r"\bfor .* in .*\.\.", r"\bfor .* in .*enumerate\(\)"],
    "4": [r"\bimpl[^{]* (From|TryFrom|Display|Clone|Copy|PartialEq|PartialOrd|Ord|Debug)\b.* for ", r"\bfn \w+_(word|number|refusal)\b", r"\bmatch v \{", r"\bif v == \d", r"\bfn (label|limit|condition)\b", r"EMPTY: "],
    "6": [r"^\s*(pub(\(crate\))? )?\w+: \[[\w:]+; \w+\]", r"^\s*(pub(\(crate\))? )?(count|width|len|at|side): usize,", r"let mut \w+ = \[.*; [\w_]+\]", r"vec!\["],
    "7": [r"\bmatch [\w.]*aim\b", r"\benum Aim\b", r"\bloose: bool", r"\bdyn \w", r"\bfn\(", r"\bF: Fn"],
}


def print_lines(files):
    """The lines of src/ that a pattern finds, point by point."""
    for point, patterns in PATTERNS.items():
        found = []
        for path, text in files:
            for n, line in enumerate(text.split("\n"), 1):
                if line.strip().startswith("//"):
                    continue
                if any(re.search(p, line) for p in patterns):
                    found.append(f"{path}:{n}: {line.strip()}")
        print(f"== point {point}: {len(found)} lines")
        print("\n".join(found))


def print_often(found, least, what, words):
    """What stands in so many functions or more, the most often first; `words` makes a text of it."""
    often = {it: where for it, where in found.items() if len(where) >= least}
    print(what(often))
    for it, where in sorted(often.items(), key=lambda x: -len(x[1])):
        print(f"{len(where)}: {words(it, where)}")


def print_functions(files):
    """Bodies of one shape, and clauses and pairs of parameters that several functions have."""
    shapes = collections.defaultdict(list)
    facts = collections.defaultdict(set)
    groups = collections.defaultdict(set)
    for path, text in files:
        for name, parameters, clauses, body in functions(text):
            where = f"{path} {name}"
            form = shape(body)
            if len(form) > 30:
                shapes[form].append(where)
            for clause in clauses:
                facts[re.sub(r"^(requires|ensures\*?) *(\w+)? *", "", clause).replace(".now", "").replace(".old", "")].add(where)
            plain = [p for p in parameters if ":" in p and "self" not in p]
            for a, b in itertools.combinations(range(len(plain)), 2):
                groups[(plain[a], plain[b])].add(where)
    print_often(shapes, 2, lambda f: f"== point 2: {len(f)} shapes of body that stand more than once, {sum(map(len, f.values()))} functions", lambda it, where: "; ".join(where))
    print_often(facts, 3, lambda f: f"== point 5, clauses in three or more functions: {len(f)}", lambda it, where: it)
    print_often(groups, 3, lambda f: f"== point 5, pairs of parameters in three or more functions: {len(f)}", lambda it, where: f"{it[0]}, {it[1]}")


def asked_of_git(*words):
    return subprocess.run(["git", *words], capture_output=True, text=True, check=True).stdout


def print_answers(commit):
    """How many lines the answers have, and the long ones that stand in three or more files."""
    answers = collections.Counter()
    total = 0
    names = asked_of_git("ls-files", "crates") if commit is None else asked_of_git("ls-tree", "-r", "--name-only", commit, "crates")
    for name in names.split("\n"):
        if not name.endswith("Answers.antt"):
            continue
        text = pathlib.Path(name).read_text() if commit is None else asked_of_git("show", f"{commit}:{name}")
        lines = [l.strip() for l in text.split("\n") if len(l.strip()) > 60 and not l.startswith(("use ", "pub ", "--"))]
        total += len(text.split("\n"))
        answers.update(set(lines))
    often = {l: n for l, n in answers.items() if n > 2}
    print(f"== point 8: {total} lines of answers; {len(often)} long lines that stand in three or more files")
    for line, n in sorted(often.items(), key=lambda x: -x[1]):
        print(f"{n}: {line[:160]}")


def main():
    commit = sys.argv[1] if len(sys.argv) > 1 else None
    files = list(sources(commit))
    print_lines(files)
    print_functions(files)
    print_answers(commit)


main()
