#!/usr/bin/env python3
"""What a part of a WAV recording costs to read and to write, beside a plain Rust twin, in one program (harness.rs).

    python3 bench/wav/bench.py

The proved library is the archive of `tools/build bench_wav`; the harness stops where the two differ. Instructions a sample are those of
one call on 131,072 samples less those on 65,536, less what the harness itself spends on as many more: counted by valgrind's callgrind on
x86-64 and under an emulator elsewhere (../x86.py). On x86-64 it prints nanoseconds a sample too, the least of 400 rounds over 65,536
samples. Wants rustc, and valgrind.
"""
import os
import subprocess
import sys

HERE = os.path.dirname(os.path.abspath(__file__))
sys.path.insert(0, os.path.dirname(HERE))
import x86

SIZE = 65536
ROWS = [("read_part", "read", "read_twin"), ("write_part", "write", "write_twin"), ("write_part, twin without early exit", "write", "write_twin_whole")]


def built():
    subprocess.run([os.path.join(x86.ROOT, "tools", "build"), "bench_wav"], cwd=x86.ROOT, check=True, stdout=subprocess.DEVNULL)
    os.makedirs(x86.WORK, exist_ok=True)
    program = os.path.join(x86.WORK, "wav_harness")
    words = [] if x86.NATIVE else ["--target", x86.TARGET, "-C", "linker=" + x86.linker(), "-C", "linker-flavor=ld.lld"]
    words += ["-L", "native=" + os.path.join(x86.ROOT, "target", "staticlib"), "-l", "static=bench_wav", "-o", program]
    subprocess.run([x86.rustc(), "--edition", "2021", "-C", "opt-level=3"] + words + [os.path.join(HERE, "harness.rs")], check=True)
    return program


def instructions(program, name, count):
    return x86.total(program, [name, str(count)])


def more(program, name):
    """What as many samples more cost."""
    return instructions(program, name, 2 * SIZE) - instructions(program, name, SIZE)


def main():
    program = built()
    if x86.NATIVE:
        print(subprocess.check_output([program], text=True), end="")
    own = more(program, "none")
    for title, ours, theirs in ROWS:
        a, b = [(more(program, name) - own) / SIZE for name in (ours, theirs)]
        print("%s: instructions a sample, proved %.2f, Rust %.2f, %.2f of the Rust's" % (title, a, b, a / b))


if __name__ == "__main__":
    main()
