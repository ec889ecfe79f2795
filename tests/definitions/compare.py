#!/usr/bin/env python3
"""Holds the definitions of the chunk list against the Rust: see README.md beside this file."""
import argparse
import os
import shutil
import subprocess
import sys
import tempfile
from collections import Counter

sys.dont_write_bytecode = True
from arrays import Maker

HERE = os.path.dirname(os.path.abspath(__file__))
ROOT = os.path.dirname(os.path.dirname(HERE))

# The crate with the equations stands in a copy of the repository, outside of it: rt minds a file that is in no crate.
CRATE = "compared: ea_worked ea_header index chunk_grid fields refusal"
SOURCES = ["bytes.rs", "chunk_grid.rs", "convert.rs", "error.rs", "extensible_array.rs", "source.rs"]
BUILD = os.path.join(ROOT, "build", "definitions")
MANIFEST = """[package]
name = "harness"
version = "0.1.0"
edition = "2024"

[[bin]]
name = "harness"
path = "main.rs"

[features]
default = ["std", "checksum"]
std = []
checksum = []

# A sum that wraps is no answer.
[profile.release]
overflow-checks = true
"""


def built(sources):
    """The harness, built over a copy of the Rust sources."""
    os.makedirs(BUILD, exist_ok=True)
    for name in SOURCES:
        shutil.copy(os.path.join(sources, name), os.path.join(BUILD, name))
    shutil.copy(os.path.join(HERE, "harness.rs"), os.path.join(BUILD, "main.rs"))
    shutil.copy(os.path.join(HERE, "shims.rs"), os.path.join(BUILD, "shims.rs"))
    with open(os.path.join(BUILD, "Cargo.toml"), "w") as f:
        f.write(MANIFEST)
    subprocess.run(["cargo", "build", "--release", "--offline", "--quiet"], cwd=BUILD, check=True, env={**os.environ, "RUSTFLAGS": "-Awarnings"})
    return os.path.join(BUILD, "target", "release", "harness")


def shape(numbers):
    return ",".join(map(str, numbers)) or "-"


def question(c):
    maximum = "none" if c.maximum is None else shape(c.maximum)
    words = [bytes(c.file).hex(), c.offset_size, c.length_size, c.address, c.element_bytes, c.order, shape(c.chunk), shape(c.present), maximum]
    return " ".join(map(str, words + [c.list_offset_size]))


def answered(harness, cases):
    """Each case with the Rust's answer, those left out that it has no numbered answer to."""
    lines = "".join(question(c) + "\n" for c in cases)
    said = subprocess.run([harness], input=lines, capture_output=True, text=True, check=True).stdout.splitlines()
    assert len(said) == len(cases)
    outside = [a for a in said if a.startswith("outside")]
    for reason, n in Counter(outside).items():
        print(f"left out {n}: {reason}")
    return [(c, a) for c, a in zip(cases, said) if not a.startswith("outside")]


def records(answer):
    return [r for r in answer[2:].split(";") if r]


def kind(answer):
    """What is refused, or how many records there are."""
    if answer.startswith("R "):
        return "refused " + answer.split()[1]
    return "accepted " + ("0", "1", "2", "more")[min(len(records(answer)), 3)]


# antt


def listed(items):
    return "".join(f"{i} ∷ " for i in items) + "[]"


def nested(items):
    return f"({listed(items)})" if items else "[]"


def expected(answer):
    if answer.startswith("R "):
        return "refusal {1} {2} {3}".format(*answer.split())
    found = []
    for r in records(answer):
        address, size, mask, offsets = r.split(":")
        found.append(f"chunk {address} {size} {mask} {nested([o for o in offsets.split(',') if o])}")
    return f"accepted {nested(found)}"


def equation(name, c, answer):
    number = int.from_bytes(bytes(c.file), "little")
    has_maximum = "false" if c.maximum is None else "true"
    order = "UnlimitedFirst" if c.order == "U" else "RowMajor"
    grid = f"given {len(c.chunk)} {nested(c.chunk)} {nested(c.present)} {has_maximum} {nested(c.maximum or [])} {order}"
    return f"""
pub {name} : answer (le_bytes {len(c.file)} {number:#x}) {c.address} {c.offset_size} {c.length_size} {c.list_offset_size} ({grid}) {c.element_bytes}
    ≡ {expected(answer)}
unfolding compared
{name} = refl
"""


def written(path, text):
    os.makedirs(os.path.dirname(path), exist_ok=True)
    with open(path, "w") as f:
        f.write(text)


def read(path):
    with open(path) as f:
        return f.read()


def repository(place, pairs):
    """Writes the repository: the crates that are here, and the crate with the equations, whose folder it gives."""
    crates = os.path.join(ROOT, "crates")
    shutil.copytree(crates, os.path.join(place, "crates"), ignore=lambda folder, _: ["out"] * (os.path.dirname(folder) == crates))
    written(os.path.join(place, "crates.txt"), read(os.path.join(ROOT, "crates.txt")) + CRATE + "\n")
    crate = os.path.join(place, "crates", "compared")
    cases = read(os.path.join(HERE, "Head.txt")) + "".join(equation(f"case-{i}", c, a) for i, (c, a) in enumerate(pairs))
    written(os.path.join(crate, "src", "lib.rt"), "// Equations; no code.\n")
    written(os.path.join(crate, "proofs", "Lib.antt"), "pub mod Cases\n")
    written(os.path.join(crate, "proofs", "Cases.antt"), cases)
    written(os.path.join(BUILD, "Cases.txt"), cases)
    return crate


def check(crate):
    """Proves a crate. What is proved of the crates that it names is taken from wherever rt has kept it."""
    return subprocess.run(["rt", "check"], cwd=crate, capture_output=True, text=True, errors="replace")


def proved(pairs):
    """Whether the equations hold, and what is said of those that don't."""
    run = check(os.path.join(ROOT, "crates", "ea_worked"))
    if run.returncode == 0:
        with tempfile.TemporaryDirectory() as place:
            run = check(repository(place, pairs))
    said = (run.stdout + run.stderr).splitlines()
    return run.returncode == 0, [line for line in said if "error" in line] or said[-10:]


def main():
    parser = argparse.ArgumentParser(description=__doc__)
    parser.add_argument("sources", help="the folder with the Rust's extensible_array.rs")
    parser.add_argument("--seed", type=int, default=2)
    parser.add_argument("--cases", type=int, default=250)
    options = parser.parse_args()

    harness = built(options.sources)
    maker = Maker(options.seed)
    cases = []
    while len(cases) < options.cases:
        c = maker.case()
        if len(c.file) <= 900:
            cases.append(c)
    pairs = answered(harness, cases)
    print(f"{len(pairs)} cases:", ", ".join(f"{k} × {n}" for k, n in sorted(Counter(kind(a) for _, a in pairs).items())))
    agree, said = proved(pairs)
    if agree:
        print("all agree")
        return 0
    print("\n".join(line[:400] for line in said))
    print("NOT all agree")
    return 1


if __name__ == "__main__":
    sys.exit(main())
