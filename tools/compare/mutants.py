#!/usr/bin/env python3
"""Edits the generated text of the original, one operator at a time, and runs the comparison against each edit.

An edit that the comparison does not catch is printed, to be explained. Nothing of the repository or of the original is changed: the
edited text stands in a build folder of its own (target/mutants).

    python3 mutants.py [SITUATIONS] [FIRST] [LAST]
    python3 mutants.py LIST [FIRST] [LAST]           asks the edited text again for the answers of a list that `compare records` has written
"""

import os
import re
import resource
import shutil
import subprocess
import sys
from pathlib import Path

HERE = Path(__file__).resolve().parent
BUILD = HERE / "target" / "mutants"
SITUATIONS = sys.argv[1] if len(sys.argv) > 1 else "20000"
FIRST = int(sys.argv[2]) if len(sys.argv) > 2 else 0
LAST = int(sys.argv[3]) if len(sys.argv) > 3 else 10**9
# Of a list few answers are asked, so that the time of the build counts.
LEVEL = "1" if SITUATIONS.isdigit() else "0"

# The functions that document 01 names; of `observe` the arms that place the ball.
JUDGES = [
    "place_for_penalty", "place_for_penalty_shot", "place_penalty_goalkeeper", "check_motion", "check_ball_out", "judge_goal", "observe",
]
NOT_IN_BASE = ["is_outside_field"]
EDITS = [
    (r" < ", " <= "), (r" <= ", " < "), (r" > ", " >= "), (r" >= ", " > "),
    (r" \+ ", " - "), (r" - ", " + "), (r" && ", " || "), (r"(?<=\S) \|\| ", " && "), (r"^(\s*)&& ", r"\1|| "), (r"^(\s*)\|\| ", r"\1&& "),
    (r" == ", " != "), (r" != ", " == "), (r" \* 0\.5", " * 0.25"), (r"leaf_min", "leaf_max"), (r"leaf_max", "leaf_min"),
    (r"\.abs\(\)", ""), (r"-field", "field"), (r"-\(field", "(field"), (r"\btrue\b", "false"), (r"\bfalse\b", "true"),
    (r"-defending_side", "defending_side"), (r"-side\b", "side"), (r"-scoring_side", "scoring_side"), (r"\b3;", "4;"), (r"<= 2", "<= 3"),
    (r"return Legal", "return Illegal"), (r"-max_y", "max_y"), (r"-goal_line_x", "goal_line_x"), (r"-pose\.radius", "pose.radius"), (r"PI \* 0\.5", "PI"),
    (r"-PI", "PI"), (r"PenaltyKick", "KickOff"), (r"\.copysign\(\w+(\.y)?\)", ""), (r"sign \* ", ""), (r"!matches!", "matches!"), (r"!valid", "valid"),
]


def build():
    environment = dict(os.environ, CARGO_TARGET_DIR=str(BUILD), CARGO_PROFILE_RELEASE_OPT_LEVEL=LEVEL, CARGO_INCREMENTAL="1", RUSTFLAGS="--cfg mutants")
    return subprocess.run(
        ["nice", "cargo", "build", "-j1", "--offline", "--release", "-q"], cwd=HERE, env=environment, capture_output=True, text=True
    )


def limited():
    """An edited loop may not end and take memory without end."""
    resource.setrlimit(resource.RLIMIT_AS, (1 << 30, 1 << 30))


def functions(text):
    """The lines of each function, by its name."""
    name, result = None, []
    for number, line in enumerate(text.split("\n")):
        found = re.match(r"\s*(?:pub )?fn (\w+)", line)
        if found:
            name = found.group(1)
        elif re.match(r"(?:pub )?(?:enum|struct|const|use) ", line):
            name = None
        result.append((number, name, line))
    return result


# The parts of two functions that are asked: each from the first pattern to the second.
PARTS = {"observe": (r"PLACE_BALL", r"commands\.push"), "check_motion": (r"let moved", r"collect")}


def sites(file, text):
    inside = False
    for number, name, line in functions(text):
        code = line.strip()
        if name in PARTS:
            first, last = PARTS[name]
            inside = (inside or bool(re.search(first, line))) and not re.search(last, line)
            if not inside or re.search(first, line):
                continue
        if name is None or code.startswith(("//", "fn ", "pub fn", "use ")) or name in NOT_IN_BASE:
            continue
        if file == "lib.rs" and name not in JUDGES:
            continue
        for pattern, by in EDITS:
            for match in re.finditer(pattern, line):
                yield number, name, line[: match.start()] + match.expand(by) + line[match.end():]


def main():
    # A run that was ended may have left an edited text.
    shutil.rmtree(BUILD / "release", ignore_errors=True)
    first = build()
    if first.returncode != 0:
        sys.exit(first.stderr)
    out = max((BUILD / "release" / "build").glob("compare-*/out"), key=lambda p: p.stat().st_mtime)
    originals = {file: (out / file).read_text() for file in ("rules.rs", "lib.rs")}
    count = {"caught": 0, "stopped": 0, "not compiled": 0, "NOT CAUGHT": 0}
    index = 0
    try:
        for file, text in originals.items():
            lines = text.split("\n")
            for number, name, edited in sites(file, text):
                index += 1
                if not FIRST <= index <= LAST:
                    continue
                with_edit = "\n".join(lines[:number] + [edited] + lines[number + 1:])
                (out / file).write_text(with_edit)
                if build().returncode != 0:
                    count["not compiled"] += 1
                    continue
                if (out / file).read_text() != with_edit:
                    sys.exit(f"edit {index}: build.rs has made the text anew, since the archive or the original has changed: begin again")
                try:
                    words, given = (["until", SITUATIONS, "1"], "") if SITUATIONS.isdigit() else (["replay"], Path(SITUATIONS).read_text())
                    run = subprocess.run(
                        ["nice", str(BUILD / "release" / "compare"), *words],
                        input=given, capture_output=True, text=True, timeout=60, preexec_fn=limited,
                    )
                    result = "caught" if run.returncode == 1 else "stopped" if run.returncode != 0 else "NOT CAUGHT"
                except subprocess.TimeoutExpired:
                    result = "stopped"
                count[result] += 1
                if index % 20 == 0:
                    print(f"{index}: {count}", file=sys.stderr, flush=True)
                if result == "NOT CAUGHT":
                    print(f"{index} {result}: {file}, {name}, line {number + 1} of the generated text: {edited.strip()}", flush=True)
            (out / file).write_text(text)
    finally:
        for file, text in originals.items():
            (out / file).write_text(text)
    print(", ".join(f"{number} {what}" for what, number in count.items()))


main()
