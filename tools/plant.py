#!/usr/bin/env python3
"""Plants bugs in a crate's code, one at a time, and tells those that the prover still accepts: `tools/plant.py CRATE [--count N] [--seed N] [--run]`.

A bug changes one place of a line: another comparison, another sign, one more, two things swapped, a statement left out, a side, a case or a
step of an iterator changed. With a count of 0 every place is tried. Each is tried by `rt check` in a copy of the repository, which is left as
it is; what does not compile is drawn again. A line is printed for each: `killed`, with what was not proved, or `SURVIVED`. The last line counts.

With --run, for code that prints, of which no clause can speak: what the prover accepts is also run, and it is killed if a program prints anything
else than without the bug, or ends otherwise.
"""
import argparse
import os
import random
import re
import shutil
import subprocess
import tempfile

# What is looked for in a line of code, and what takes its place.
CHANGES = [
    (r"(?<![<>=\-!])<(?![<=])(?= )", "<="),
    (r"(?<=[ ])<=", "<"),
    (r"(?<![<>=\-])>(?![>=])(?= )", ">="),
    (r"(?<=[ ])>=", ">"),
    (r"==", "!="),
    (r"!=", "=="),
    (r"(?<= )\+(?= )", "-"),
    (r"(?<= )-(?= )", "+"),
    (r"(?<= )\*(?= )", "+"),
    (r"(?<= )/(?= )", "%"),
    (r"(?<= )%(?= )", "/"),
    (r"&&", "||"),
    (r"\|\|(?= [a-z!(])", "&&"),
    (r"(?<= )\|(?= [a-z])(?!.*=>)", "&"),
    (r"(?<= )&(?= )", "|"),
    (r"\|=", "&="),
    (r"&=", "|="),
    (r"<<", ">>"),
    (r"\btrue\b", "false"),
    (r"\bfalse\b", "true"),
    (r"\bbreak\b(?=[; ])", "continue"),
    (r"\bSide::One\b", "Side::Two"),
    (r"\bSide::Two\b", "Side::One"),
    (r"\.opponent\(\)", ""),
    (r"\bmine\b", "theirs"),
    (r"\btheirs\b", "mine"),
    (r"\bfirst\b(?=[,; .)])", "last"),
    (r"\blast\b(?=[,; .)])", "first"),
    (r"\bparents\b(?=[,)])", "borders"),
    (r"\bqueue\b(?=[,)])", "from"),
    (r"\.rev\(\)", ""),
    (r"\bsaturating_sub\b", "saturating_add"),
    (r"_le_bytes", "_be_bytes"),
    (r"\bNone\b(?= =>|;|,|$)(?!.*=>)", "Some(0)"),
    (r"(?<= )!(?=[a-z(])", ""),
    (r"\bif (?=[a-z!])(?!let)", "if !"),
    (r"(?<=return )(\w+)(?=;)", "0"),
]
NUMBER = re.compile(r"(?<![\w.\[])(\d+)(?![\w.])")
PAIR = re.compile(r"\(([\w&.]+), ([\w&.]+)\)")


# What the programs are run on, with --run: a program, its arguments, and a file that it reads.
RUNS = [
    ("answer", [], "crates/answer/stdin"),
    ("answer", ["--help"], "/dev/null"),
    ("answer", ["--show"], "crates/answer/stdin"),
    ("show", [], "crates/show/stdin"),
    ("show", [], "/dev/null"),
    ("show", ["--help"], "/dev/null"),
    ("desk", ["--show"], "crates/answer/stdin"),
    ("desk", ["--show", "--times"], "examples/long-way.txt"),
    ("desk", ["--times"], "crates/answer/stdin"),
    ("desk", ["--help", "--show"], "/dev/null"),
    ("desk", ["--times", "--tims"], "/dev/null"),
]


def places(source):
    """Each line's number with what it becomes. The lines of a text that goes over several are none of code."""
    clause = text_goes_on = False
    for number, line in enumerate(source.split("\n")):
        text = line.strip()
        was_text, text_goes_on = text_goes_on, text_goes_on != (line.split("//")[0].replace('\\"', "").count('"') % 2 == 1)
        if was_text:
            continue
        if text.startswith(("//", "ghost", "use ", "pub use", "#[", "#!", "mod ", "pub mod")):
            continue
        if text.startswith(("requires", "ensures")):
            clause = text.count("{") > text.count("}")
            continue
        if clause:
            clause = not text.endswith("}")
            continue
        if re.match(r"(pub(\(crate\))? |const |unsafe )*(fn|impl|struct|enum|trait|mod)\b", text):
            continue
        code = line.split("//")[0]
        for pattern, new in CHANGES:
            for found in re.finditer(pattern, code):
                yield number, line[: found.start()] + new + line[found.end() :]
        for found in NUMBER.finditer(code):
            yield number, line[: found.start()] + str(int(found[1]) + 1) + line[found.end() :]
        for found in PAIR.finditer(code):
            if found[1] != found[2]:
                yield number, line[: found.start()] + f"({found[2]}, {found[1]})" + line[found.end() :]
        if text.endswith(";") and not text.startswith(("let", "return", "break", "continue", "}")):
            yield number, ""


def judged(copy, crate):
    """What rt check says: 'survived', 'killed' with the first fact that failed, or 'skipped'."""
    try:
        run = subprocess.run(["rt", "check"], cwd=os.path.join(copy, "crates", crate), capture_output=True, text=True, timeout=600)
    except subprocess.TimeoutExpired:
        return "killed", "no proof in ten minutes"
    out = run.stdout + run.stderr
    if run.returncode == 0 and "logic=proved" in out:
        return "survived", ""
    for line in out.split("\n"):
        if re.match(r"src/\S+ error(\[|:)", line) or "did not build" in line:
            return "skipped", line
    for line in out.split("\n"):
        if "it is not proved that" in line or "error: `" in line:
            return "killed", line.strip()[:160]
    return "killed", out.strip().split("\n")[-1][:160]


def told(copy, programs):
    """What each run of these programs gives: its status, its output, and what it tells on standard error, where only times may differ."""
    for program in programs:
        built = os.path.join(copy, "crates", program, "out", program)
        if os.path.exists(built):
            os.remove(built)
        subprocess.run(["rt", "run"], cwd=os.path.join(copy, "crates", program), stdin=subprocess.DEVNULL, capture_output=True, timeout=600)
        for called, arguments, file in RUNS:
            if called == program and os.path.exists(built):
                with open(os.path.join(copy, file), "rb") as given:
                    ran = subprocess.run([built, *arguments], stdin=given, capture_output=True, timeout=120)
                yield " ".join([program, *arguments, "<", file]), ran.returncode, ran.stdout, re.sub(rb"\d+ ns", b"N ns", ran.stderr)
            elif called == program:
                yield program, "is not built"


def main():
    parser = argparse.ArgumentParser(description=__doc__.split("\n")[0])
    parser.add_argument("crate")
    parser.add_argument("--count", type=int, default=40)
    parser.add_argument("--seed", type=int, default=1)
    parser.add_argument("--run", action="store_true")
    asked = parser.parse_args()
    root = subprocess.check_output(["git", "rev-parse", "--show-toplevel"], text=True).strip()
    with tempfile.TemporaryDirectory(prefix="plant-") as work:
        copy = os.path.join(work, "repository")
        shutil.copytree(root, copy, ignore=shutil.ignore_patterns("target"))
        assert judged(copy, asked.crate)[0] == "survived", "the crate is not proved as it is"
        programs = sorted({program for program, _, _ in RUNS if asked.run and asked.crate in ("programs", program)}, reverse=True)
        right = list(told(copy, programs))
        source = os.path.join(copy, "crates", asked.crate, "src")
        sites = []
        for base, _, names in os.walk(source):
            for name in sorted(names):
                if name.endswith(".rt"):
                    path = os.path.join(base, name)
                    sites += [(path, number, new) for number, new in places(open(path, encoding="utf-8").read())]
        random.Random(asked.seed).shuffle(sites)
        counts = {"killed": 0, "survived": 0, "skipped": 0}
        for path, number, new in sites:
            if asked.count and counts["killed"] + counts["survived"] >= asked.count:
                break
            text = open(path, encoding="utf-8").read()
            lines = text.split("\n")
            old, lines[number] = lines[number], new
            open(path, "w", encoding="utf-8").write("\n".join(lines))
            what, why = judged(copy, asked.crate)
            if what == "survived" and programs:
                other = next((now[0] for now, was in zip(told(copy, programs), right) if now != was), None)
                if other:
                    what, why = "killed", "told by " + other
            open(path, "w", encoding="utf-8").write(text)
            counts[what] += 1
            if what == "skipped":
                continue
            word = "SURVIVED" if what == "survived" else "killed"
            print(f"{word} {os.path.relpath(path, copy)}:{number + 1}\n  - {old.strip()}\n  + {new.strip()}\n  {why}", flush=True)
        print(
            f"{asked.crate}: {counts['killed']} of {counts['killed'] + counts['survived']} killed;"
            f" {counts['skipped']} did not compile; {len(sites)} places, seed {asked.seed}"
        )


main()
