#!/usr/bin/env python3
"""What the proved replay program costs beside a plain Rust twin (twin.rs): bytes a second, instructions a byte, memory.

    tools/build replay && python3 bench/replay/bench.py

Programs are compiled for x86-64, and their instructions are counted under an emulator, the machine's own or the one that ../x86.py fetches, or by valgrind's callgrind. On another
processor the twin's rustc is fetched too; on x86-64 it wants rustc. The time under an emulator says nothing, so for the bytes a second the program's LLVM module is compiled for this processor by
the toolchain's own clang at -O3, and both programs run natively: the same module and flags, another back end.
"""
import os
import platform
import random
import resource
import shutil
import subprocess
import sys
import tempfile

HERE = os.path.dirname(os.path.abspath(__file__))
sys.path.insert(0, os.path.dirname(HERE))
import x86
from x86 import ROOT

LIBRARIES = ["playback", "records", "text", "words", "blocks", "sums", "shape", "lent", "cic"]
KIT_LIBRARIES = ["std", "check", "io", "libc"]
WRAPPER = """#!/bin/sh
case " $* " in *" -O3 "*) cp module.bc "%s/module.bc" ;; esac
exec "%s/bin/clang" "$@"
"""


def retargeted(work):
    """The program compiled for this processor."""
    kit, tools = x86.kit(), x86.tools()
    shadow = os.path.join(work, "toolchain")
    os.makedirs(os.path.join(shadow, "bin"))
    os.symlink(os.path.join(tools, "lib"), os.path.join(shadow, "lib"))
    for name in os.listdir(os.path.join(tools, "bin")):
        if name != "clang":
            os.symlink(os.path.join(tools, "bin", name), os.path.join(shadow, "bin", name))
    clang = os.path.join(shadow, "bin", "clang")
    with open(clang, "w") as out:
        out.write(WRAPPER % (work, tools))
    os.chmod(clang, 0o755)
    for name, text in [("stdin", ""), ("stdout", "end\t0\n")]:
        with open(os.path.join(work, name), "w") as out:
            out.write(text)
    words = [os.path.join(os.path.dirname(tools), "bin", "rattle-cases"), "--toolchain", shadow]
    words += ["--stdin", os.path.join(work, "stdin"), "--stdout", os.path.join(work, "stdout")]
    words += [os.path.join(ROOT, "crates", "replay", "src", "main.rt"), "--crate-name", "replay"]
    for name in KIT_LIBRARIES:
        words += ["--lib", "%s=%s" % (name, os.path.join(kit, "libs", name, "src", "lib.rt"))]
    for name in LIBRARIES:
        words += ["--lib", "%s=%s" % (name, os.path.join(ROOT, "crates", name, "src", "lib.rt"))]
    subprocess.run(words, check=True, stdout=subprocess.DEVNULL)
    target = ["--target=%s-unknown-linux-gnu" % platform.machine(), "-O3", "-Wno-override-module", "-fPIE"]
    words = [os.path.join(tools, "bin", "clang")] + target + ["-x", "ir", os.path.join(work, "module.bc"), "-c"]
    subprocess.run(words + ["-o", os.path.join(work, "replay.o")], check=True, stderr=subprocess.DEVNULL)
    program = os.path.join(work, "replay")
    subprocess.run(["cc", "-o", program, os.path.join(work, "replay.o")], check=True)
    return program


def recording(path, name, bits, rate, size):
    rng = random.Random(7)
    with open(path, "w") as out:
        written = out.write("%s\t3\t1\t%d\n" % (name, rate))
        while written < size:
            block = []
            for _ in range(20000):
                reach = 1 << rng.randint(1, bits - 1)
                block.append("x\t%d\n" % rng.randint(-reach, reach - 1))
            written += out.write("".join(block))
    return os.path.getsize(path)


def best(program, path):
    """The shortest of seven runs, in seconds of processor time of the program itself."""
    times = []
    for _ in range(7):
        with open(path, "rb") as recorded:
            before = resource.getrusage(resource.RUSAGE_CHILDREN)
            subprocess.run([program], stdin=recorded, stdout=subprocess.DEVNULL, check=True)
            after = resource.getrusage(resource.RUSAGE_CHILDREN)
        times.append(after.ru_utime + after.ru_stime - before.ru_utime - before.ru_stime)
    return min(times)


def instructions(program, path, want):
    with open(path, "rb") as recorded, tempfile.TemporaryFile() as gave:
        count = x86.total(program, [], recorded, gave)
        gave.seek(0)
        if gave.read() != want:
            sys.exit("%s gives something else under the emulator" % program)
    return count


def compiled(work, name, words=()):
    """The twin."""
    program = os.path.join(work, name)
    words = [x86.rustc(), "--edition", "2021", "-C", "opt-level=3"] + list(words)
    subprocess.run(words + ["-o", program, os.path.join(HERE, "twin.rs")], check=True)
    return program


def emulated(work):
    """The program as it is, and the twin for the same processor."""
    words = ["--target", x86.TARGET, "-C", "linker=" + x86.linker(), "-C", "linker-flavor=ld.lld"]
    return [os.path.join(ROOT, "target", "bin", "replay"), compiled(work, "twin_x86", words)]


def memory(program, path):
    """Peak resident memory in KB, once all of the recording is read."""
    run = subprocess.Popen([program], stdin=subprocess.PIPE, stdout=subprocess.DEVNULL)
    with open(path, "rb") as recorded:
        shutil.copyfileobj(recorded, run.stdin)
    run.stdin.flush()
    with open("/proc/%d/status" % run.pid) as status:
        peak = next(int(line.split()[1]) for line in status if line.startswith("VmHWM"))
    run.communicate()
    return peak


def measure(name, bits, rate, work, native, counted):
    path, small = os.path.join(work, "recording"), os.path.join(work, "small")
    size = recording(path, name, bits, rate, 20_000_000)
    recording(small, name, bits, rate, 2_000_000)
    outputs = [subprocess.run([p], stdin=open(path, "rb"), stdout=subprocess.PIPE).stdout for p in native]
    if outputs[0] != outputs[1]:
        sys.exit("the two differ at %s, rate %d" % (name, rate))
    fast = [best(p, path) for p in native]
    print("%s, rate %2d, %d bytes" % (name, rate, size))
    print("  proved %.0f MB/s, Rust %.0f MB/s, time %.2f of the Rust's" % (size / fast[0] / 1e6, size / fast[1] / 1e6, fast[0] / fast[1]))
    a, b = [instructions(p, path, outputs[0]) for p in counted]
    print("  x86-64 instructions a byte: proved %.1f, Rust %.1f, %.2f of the Rust's" % (a / size, b / size, a / b))
    print("  peak memory of the proved program: %d KB on 2 MB, %d KB on 20 MB" % (memory(native[0], small), memory(native[0], path)))


def main():
    work = tempfile.mkdtemp()
    try:
        x86.need_built("target/bin/replay", "replay")
        os.makedirs(x86.WORK, exist_ok=True)
        proved = os.path.join(ROOT, "target", "bin", "replay") if x86.NATIVE else retargeted(work)
        twin = compiled(work, "twin")
        counted = [proved, twin] if x86.NATIVE else emulated(work)
        print("processor %s" % platform.machine())
        for name, bits in [("cic", 32), ("cic64", 64)]:
            for rate in [0, 63]:
                measure(name, bits, rate, work, [proved, twin], counted)
    finally:
        shutil.rmtree(work)


if __name__ == "__main__":
    main()
