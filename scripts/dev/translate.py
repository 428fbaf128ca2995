#!/usr/bin/env python3
"""Translates crates into one plain Rust program, to count instructions of what isn't proved yet.

    scripts/dev/translate.py FOLDER [CRATES]

FOLDER gets a cargo project: each crate of `NAMES` as a module without clauses and ghost code, `translate_std.rs` in the
place of Rattle's library, and `translate_main.rs` as its main file. CRATES is the folder of the crates, `crates/` unless said.
Then

    cd FOLDER && cargo build --release
    target/release/translated check TIMES CONFIG..   tables, mixture and finder of one network, so many times
    target/release/translated links TIMES CONFIG..   of a network without each of so many of its links, spread over all
    target/release/translated plan BRANCHES CONFIG.. the plan of a network with this budget, and its text
    target/release/translated read 1 CONFIG..        the network alone
    valgrind --tool=callgrind --toggle-collect='translated::judge' target/release/translated check 1 CONFIG..

It tells what a change of bodies would bring before it is proved. The proved program, built by LLVM, takes some 5 of 100 less.
Nothing here is proved, and nothing that is built stands on it.
"""
import pathlib
import re
import shutil
import sys

NAMES = (
    "net_addr net_model order_core walk_core route_core zone_graph route_tables ospf_routes isis_routes prefix_atoms rib_mix "
    "loop_finder ios_lines ios_sections ios_reader network_survey failed_links printed_lines igp_theory link_trail "
    "precedence_set order_search step_scripts change_orders plan_theory refutation_check wave_oracle"
).split()
CLAUSE = re.compile(r"\s*(requires|ensures|decreases)\b(\s+[a-z_0-9]+)?\s*\{")
DERIVE = re.compile(r"(\s*)#\[derive\((.*)\)\]")
LEFT_OUT = ("#![tactic", "#[tactic", "#[error", "use std::marker::Model")
HEAD = "#[allow(unused_imports)]\nuse crate::plain::prelude::*;\n"
MANIFEST = """[package]
name = "translated"
version = "0.1.0"
edition = "2021"

[profile.release]
opt-level = 2
debug = 1
panic = "abort"
codegen-units = 1
"""


def behind_braces(lines, place):
    """The place behind the braces that open on a line or later."""
    depth, opened = 0, False
    while place < len(lines):
        depth += lines[place].count("{") - lines[place].count("}")
        opened = opened or "{" in lines[place]
        place += 1
        if opened and depth <= 0:
            break
    return place


def behind_ghost(lines, place):
    """The place behind a ghost item, which ends with `;`, or as a field with `},`."""
    depth = 0
    while True:
        depth += lines[place].count("{") - lines[place].count("}")
        end = lines[place].rstrip()
        place += 1
        if depth == 0 and end.endswith((";", "},")):
            return place


def without_ghosts(text):
    """The lines of a file without clauses, ghost code, models and attributes of the prover."""
    lines, kept, place = text.split("\n"), [], 0
    while place < len(lines):
        line, said = lines[place], lines[place].strip()
        derived = DERIVE.match(line)
        if said.startswith(("ghost ", "pub ghost ")):
            place = behind_ghost(lines, place)
        elif CLAUSE.match(line):
            place = behind_braces(lines, place)
            if lines[place - 1].rstrip().endswith(";"):
                kept[-1] += ";"
        elif re.match(r"impl.*\bModel for ", said):
            place = behind_braces(lines, place)
        elif said.startswith(LEFT_OUT):
            while not lines[place].rstrip().endswith(("]", ";")):
                place += 1
            place += 1
        elif derived:
            names = [name.strip() for name in derived[2].split(",")]
            names = [name for name in names if name not in ("Drop", "Debug", "Error")]
            kept += [f"{derived[1]}#[derive({', '.join(names)})]"] if names else []
            place += 1
        else:
            kept += [] if said.startswith(("use thiserror", "///")) else [line.replace("#[from] ", "")]
            place += 1
    return "\n".join(kept)


def plain_rust(text, crate):
    """A file of a crate as a file of its module."""
    text = without_ghosts(text).replace("vec![in", "crate::plain_vec![in")
    text = re.sub(r"\bcrate::(?!plain)", f"crate::{crate}::", text)
    for name in ("alloc", "rc"):
        text = text.replace(f"std::{name}::", f"crate::plain::{name}::")
    for name in NAMES:
        text = re.sub(rf"(?m)^(\s*(?:pub )?use ){name}::", rf"\1crate::{name}::", text)
        text = re.sub(rf"(?<![\w:.]){name}::(?=[A-Za-z_]+(::|\())", rf"crate::{name}::", text)
    for name in ("indexmap", "memchr", "itoa"):
        text = text.replace(f"use {name}::", f"use crate::plain::{name}::")
    text = text.replace("memchr::memchr(", "crate::plain::memchr::memchr(").replace("Copy + Drop", "Copy")
    text = re.sub(r":\s*Drop\b(?!\()", "", text).replace("//!", "//").replace(".collect(alloc)", ".collect_in(alloc)")
    text = text.replace("Box::new(alloc, ", "crate::plain::boxed(").replace("by_name.get(name)", "by_name.get(&name)")
    return re.sub(r"(?<!std::)\bslice::from_ref", "std::slice::from_ref", text.replace("use std::slice;\n", ""))


def main():
    if len(sys.argv) not in (2, 3):
        sys.exit(__doc__)
    here = pathlib.Path(__file__).resolve().parent
    folder, crates = pathlib.Path(sys.argv[1]), pathlib.Path(sys.argv[2]) if len(sys.argv) == 3 else here.parents[1] / "crates"
    source = folder / "src"
    source.mkdir(parents=True, exist_ok=True)
    (folder / "Cargo.toml").write_text(MANIFEST, encoding="utf-8")
    shutil.copy(here / "translate_std.rs", source / "plain.rs")
    modules = "\n".join(f"pub mod {name};" for name in NAMES)
    main_text = (here / "translate_main.rs").read_text(encoding="utf-8")
    (source / "main.rs").write_text(main_text.replace("// the crates\n", modules + "\n"), encoding="utf-8")
    for name in NAMES:
        shutil.rmtree(source / name, ignore_errors=True)
        (source / name).mkdir()
        for file in sorted((crates / name / "src").glob("*.rt")):
            to = "mod.rs" if file.name == "lib.rt" else file.stem + ".rs"
            text = plain_rust(file.read_text(encoding="utf-8"), name)
            (source / name / to).write_text(HEAD + text, encoding="utf-8")


main()
