#!/usr/bin/env python3
"""What each proved filter costs beside the Rust crate's own text, in one program, by turns, on the same inputs.

    python3 bench/filters/bench.py [SRC] [--sizes] [--instructions] [--table]

SRC is the folder of the crate's text, by default ../shared/docs/src from the project's root; --sizes adds the decimator's block from
1,024 to 16 million inputs. The proved library is the archive of `tools/build bench_exports`, the crate is built by cargo in release
as oracle/run does, and the program stops where two outputs differ. On x86-64 it prints nanoseconds, the least of 60 rounds. On another
processor the archive runs only under an emulator, where a time says nothing: there, and on x86-64 with --instructions, it counts the
instructions between two marks (../x86.py). --table, on x86-64: both, the times as the median of five runs, with the least and the greatest
ratio of them.
"""
import glob
import os
import re
import shutil
import statistics
import subprocess
import sys
import tempfile

HERE = os.path.dirname(os.path.abspath(__file__))
sys.path.insert(0, os.path.dirname(HERE))
import x86
from x86 import DEBIAN, NATIVE, ROOT, TARGET, WORK

CRATES = {"librust-num-traits-dev": "0.2.15", "librust-autocfg-dev": "1.1.0"}
REGISTRY = "usr/share/cargo/registry"


def run(words, **more):
    return subprocess.run(words, check=True, **more)


def registry():
    if glob.glob("/%s/num-traits-*" % REGISTRY):
        return "/" + REGISTRY
    x86.unpack(CRATES)
    return os.path.join(DEBIAN, REGISTRY)


def build(src):
    """The program that holds both."""
    x86.need("cargo", "rustup has one, or Debian's cargo")
    x86.need("llvm-objdump", "apt-get install llvm")
    if not os.path.exists(os.path.join(ROOT, src, "cic.rs")):
        x86.stop("no text of the crate idsp 0.23.1 in %s: name its src folder" % src)
    run([os.path.join(ROOT, "tools", "build"), "bench_exports"], cwd=ROOT, stdout=subprocess.DEVNULL)
    os.makedirs(WORK, exist_ok=True)
    run(["oracle/run", "--text", os.path.join("target", "bench", "oracle"), src], cwd=ROOT)
    harness = os.path.join(WORK, "harness")
    shutil.copytree(os.path.join(HERE, "harness"), harness, dirs_exist_ok=True)
    os.makedirs(os.path.join(WORK, ".cargo"), exist_ok=True)
    with open(os.path.join(WORK, ".cargo", "config.toml"), "w") as out:
        out.write('[source.crates-io]\nreplace-with = "debian"\n[source.debian]\ndirectory = "%s"\n' % registry())
    flags = "-L native=%s -l static=bench_exports" % os.path.join(ROOT, "target", "staticlib")
    env = dict(os.environ)
    if not NATIVE:
        env.update({"RUSTC": x86.rustc(), "CARGO_TARGET_X86_64_UNKNOWN_LINUX_GNU_LINKER": x86.linker()})
        flags += " -C linker-flavor=ld.lld"
    env["CARGO_TARGET_X86_64_UNKNOWN_LINUX_GNU_RUSTFLAGS"] = flags
    run(["cargo", "build", "--offline", "--quiet", "--release", "--target", TARGET], cwd=harness, env=env)
    return os.path.join(harness, "target", TARGET, "release", "harness")


def measured(program, words, timed):
    """Rows: name, size, cost of the proved and of the Rust."""
    if timed:
        said = subprocess.check_output([program] + words, text=True)
        return [(name, int(size), float(a), float(b)) for name, size, a, b in (l.split("\t") for l in said.splitlines())]
    with tempfile.TemporaryFile("w+") as said:
        marks = x86.marks(program, ["--count"] + words, said)
        said.seek(0)
        rows = [line.split("\t") for line in said.read().splitlines()]
    return [(name, int(size), marks[3 * i + 1] - marks[3 * i], marks[3 * i + 2] - marks[3 * i + 1]) for i, (name, size) in enumerate(rows)]


def frames():
    """What the compiled code says of stack, calls and memory: largest frame in bytes, every function that is called."""
    code = subprocess.check_output(["llvm-objdump", "-d", "-r", "--no-show-raw-insn", "-M", "intel", os.path.join(ROOT, "target", "staticlib", "libbench_exports.a")], text=True)
    largest = max(int(n, 0) for n in re.findall(r"\bsub\s+rsp, (\w+)", code)) if re.search(r"\bsub\s+rsp, ", code) else 0
    called = sorted(set(re.findall(r"R_X86_64_PLT32\s+(\w+)", code)))
    return largest, called


def each(rows):
    """What a sample costs in each row, less what an empty call costs."""
    _, _, spare_a, spare_b = rows[0]
    return [(name, size, (a - spare_a) / size, (b - spare_b) / size) for name, size, a, b in rows[1:]]


def table(program, words):
    """Instructions beside five timed runs."""
    counted = each(measured(program, words, False))
    runs = [each(measured(program, words, True)) for _ in range(5)]
    print("| filter | samples a block | proved, instructions a sample | Rust | ratio | proved, ns | Rust | ratio of times | its least and greatest of five runs |")
    print("|---|---|---|---|---|---|---|---|---|")
    for row, (name, size, a, b) in enumerate(counted):
        ours, theirs = [statistics.median(run[row][k] for run in runs) for k in (2, 3)]
        ratios = sorted(run[row][2] / run[row][3] for run in runs)
        print("| %s | %s | %.2f | %.2f | %.2f | %.2f | %.2f | %.2f | %.2f to %.2f |" % (name, format(size, ","), a, b, a / b, ours, theirs, ratios[2], ratios[0], ratios[4]))


def main():
    words = sys.argv[1:]
    src = next((w for w in words if not w.startswith("--")), os.path.join("..", "shared", "docs", "src"))
    timed = NATIVE and "--instructions" not in words
    program, sizes = build(src), [w for w in words if w == "--sizes"]
    if NATIVE and "--table" in words:
        table(program, sizes)
    else:
        unit = "ns" if timed else "instructions"
        print("| filter | block | proved, %s a sample | Rust | ratio |\n|---|---|---|---|---|" % unit)
        for name, size, a, b in each(measured(program, sizes, timed)):
            print("| %s | %s | %.2f | %.2f | %.2f |" % (name, format(size, ","), a, b, a / b))
    print("\nlargest frame %d bytes; called: %s" % (frames()[0], ", ".join(frames()[1]) or "nothing"))


if __name__ == "__main__":
    main()
