"""The crate for Rust beside C over the same archive: tables for bindings/rust/README.md.

    tools/measure rust [--folder FOLDER] [--runs 9] [--only calls programs lox seconds]

FOLDER has libg1heap.a; lib/ where it is left out. `calls` counts the instructions of a call with the making of the question, by callgrind,
from two runs that differ by 20,000 calls: of tools/measuring/library_costs.c and of the crate's example `costs`. `programs` counts those of
whole programs: clients/gcbench.c, clients/binary_trees.c and tools/measuring/stack_vm.c, and the crate's examples of the same; these also
inlined, as the crate's page has it, where the kit and the module are there. `lox` counts those of the crate's two interpreters of Lox, over
the heap, also inlined, and over Rc, for each program of examples/lox that comes to its end. `seconds` takes the user time of larger ones, the best of some
runs in turns. It needs cc, cargo and valgrind.
"""
import argparse
import os
import shutil
import subprocess
import sys
import tempfile
from pathlib import Path

from measuring import counting
from measuring.counting import instructions

TOP = Path(counting.TOP)
# A call, as the example names it and as the C program does.
CALLS = [("get", "get"), ("get into a place", "get"), ("read", "read"), ("write", "write"), ("put", "put"),
         ("put while marking", "put while marking"), ("move", "move"), ("new 2 + 1", "new 2 + 1"),
         ("make 2 + 1", "make 2 + 1"), ("make filled 2 + 1", "make filled 2 + 1"), ("name", "name"), ("scope", "scope")]
# A program: its name, its C, its example, and its words where instructions are counted and where time is taken.
PROGRAMS = [("GCBench", "clients/gcbench.c", "gcbench", "12", "16"), ("binary-trees", "clients/binary_trees.c", "binary_trees", "12", "16"),
            ("stack machine", "tools/measuring/stack_vm.c", "vm", "500 100", "500 2000")]


def seconds(program, *words):
    with subprocess.Popen([str(program), *words], stdout=subprocess.DEVNULL) as run:
        _, status, took = os.wait4(run.pid, 0)
        run.returncode = os.waitstatus_to_exitcode(status)
    if run.returncode != 0:
        sys.exit(f"{program}: status {run.returncode}")
    return took.ru_utime


def compile_c(source, to, folder):
    flags = ["-std=c11", "-D_DEFAULT_SOURCE", "-O2", f"-I{TOP / 'include'}"]
    subprocess.run(["cc", *flags, str(TOP / source), str(folder / "libg1heap.a"), "-o", str(to)], check=True)
    return to


def build_inlined(folder, scratch):
    """Builds the examples over the module, and returns their folder, or nothing where it or the kit isn't there."""
    if not (folder / "libg1heap.bc").exists() or not shutil.which("rt"):
        return None
    (scratch / "inlined").mkdir()
    shutil.copy(folder / "libg1heap.a", scratch / "inlined")
    subprocess.run(["ar", "d", str(scratch / "inlined" / "libg1heap.a"), "g1heap_c.o"], check=True)
    kit = Path(subprocess.run(["rt", "doc"], check=True, capture_output=True, text=True).stdout.strip()).parent
    said = subprocess.run(["pkg-config", "--variable=inlined", "g1heap"], env={**os.environ, "PKG_CONFIG_PATH": str(folder)}, check=True,
                          capture_output=True, text=True)
    flags = ["target-cpu=x86-64-v2", "linker-plugin-lto", f"linker={kit}/toolchain/bin/clang",
             *(f"link-arg={it}" for it in said.stdout.split())]
    target = "x86_64-unknown-linux-gnu"
    subprocess.run(["cargo", "build", "--quiet", "--release", "--target", target, *(f"--example={it[2]}" for it in PROGRAMS), "--example=lox"],
                   cwd=TOP / "bindings" / "rust", check=True,
                   env={**os.environ, "G1HEAP_LIB_DIR": str(scratch / "inlined"), "CARGO_TARGET_DIR": str(scratch / "lto"),
                        "CARGO_PROFILE_RELEASE_LTO": "fat", "CARGO_PROFILE_RELEASE_CODEGEN_UNITS": "1",
                        "RUSTFLAGS": " ".join(f"-C {it}" for it in flags)})
    return scratch / "lto" / target / "release" / "examples"


def table(heads):
    print("| " + " | ".join(heads) + " |\n|" + "---|" * len(heads))


def row(name, c, rust, digits):
    print(f"| {name} | {c:,.{digits}f} | {rust:,.{digits}f} | {rust / c:.2f} |", flush=True)


def main():
    parser = argparse.ArgumentParser(description=__doc__, formatter_class=argparse.RawDescriptionHelpFormatter)
    parser.add_argument("--folder", type=Path, default=TOP / "lib")
    parser.add_argument("--runs", type=int, default=9)
    parser.add_argument("--only", nargs="+", default=["calls", "programs", "lox", "seconds"])
    chosen = parser.parse_args()
    folder = chosen.folder.resolve()
    with tempfile.TemporaryDirectory() as scratch:
        scratch = Path(scratch)
        subprocess.run(["cargo", "build", "--quiet", "--release", "--examples"], cwd=TOP / "bindings" / "rust", check=True,
                       env={**os.environ, "G1HEAP_LIB_DIR": str(folder), "CARGO_TARGET_DIR": str(scratch)})
        examples = scratch / "release" / "examples"
        if "calls" in chosen.only:
            table(["Instructions a call", "C", "Rust", "Rust to C"])
            c = compile_c("tools/measuring/library_costs.c", scratch / "library_costs", folder)
            for name, in_c in CALLS:
                counts = [(instructions(it, call, "30000") - instructions(it, call, "10000")) / 20000
                          for it, call in ((c, in_c), (examples / "costs", name))]
                row(name, *counts, 0)
        programs = [(name, compile_c(source, scratch / f"c_{example}", folder), examples / example, few, many)
                    for name, source, example, few, many in PROGRAMS]
        inlined = build_inlined(folder, scratch) if {"programs", "lox"} & set(chosen.only) else None
        if "programs" in chosen.only:
            table(["Millions of instructions", "C", "Rust", "Rust to C", "Rust, inlined"])
            for name, c, rust, few, _ in programs:
                counts = [instructions(it, *few.split()) / 1e6 for it in (c, rust, *([inlined / rust.name] if inlined else []))]
                print(f"| {name}, {few} | {counts[0]:,.0f} | {counts[1]:,.0f} | {counts[1] / counts[0]:.2f} | "
                      f"{f'{counts[2]:,.0f}' if inlined else '-'} |", flush=True)
        if "lox" in chosen.only:
            table(["Millions of instructions", "Rc", "g1heap", "g1heap to Rc", "inlined", "inlined to Rc"])
            interpreters = [examples / "lox_rc", examples / "lox", *([inlined / "lox"] if inlined else [])]
            for program in sorted((TOP / "bindings" / "rust" / "examples" / "lox").glob("*.lox")):
                if "\n[line " not in program.with_suffix(".out").read_text():
                    counts = [instructions(it, program) / 1e6 for it in interpreters]
                    cells = [f"{counts[0]:,.0f}", *(f"{it:,.0f} | {it / counts[0]:.2f}" for it in counts[1:])]
                    print(f"| {program.name} | {' | '.join(cells if inlined else [*cells, '-', '-'])} |", flush=True)
        if "seconds" in chosen.only:
            table(["Seconds", "C", "Rust", "Rust to C"])
            for name, c, rust, _, many in programs:
                best = [float("inf")] * 2
                for _ in range(chosen.runs):
                    best = [min(old, seconds(it, *many.split())) for old, it in zip(best, (c, rust))]
                row(f"{name}, {many}", *best, 2)
