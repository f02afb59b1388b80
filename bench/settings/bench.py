#!/usr/bin/env python3
"""What the settings program costs: instructions a byte of a store, and processor time of a run.

    tools/build settings && python3 bench/settings/bench.py

The stores hold 64 records, decimators or filters of 8 sections, the most that a store can have. Instructions are those of a run less those on a
store without records (../x86.py); the time is the median of five times 50 runs,
on x86-64 alone. The crate has no settings: there is nothing beside it.
"""
import os
import resource
import statistics
import subprocess
import sys
import tempfile

HERE = os.path.dirname(os.path.abspath(__file__))
sys.path.insert(0, os.path.dirname(HERE))
import x86

PROGRAM = os.path.join(x86.ROOT, "target", "bin", "settings")
HEAD = "set\t1\n"


NAMES = [a + b for a in "abcdefgh" for b in "abcdefgh"]


def decimators():
    return HEAD + "".join("cic\t%s\t8\t8\t65535\n" % name for name in NAMES)


def filters():
    coefficients = "\t".join(str(-2147483648 + k) for k in range(8))
    return HEAD + "".join("wdf\t%s\t8\taaaaaaaa\t%s\n" % (name, coefficients) for name in NAMES)


def instructions(words, store):
    with tempfile.TemporaryFile("w+") as given:
        given.write(store)
        given.seek(0)
        return x86.total(PROGRAM, words, given, subprocess.DEVNULL)


def seconds(words, store):
    before = resource.getrusage(resource.RUSAGE_CHILDREN)
    for _ in range(50):
        subprocess.run([PROGRAM] + words, input=store, stdout=subprocess.DEVNULL, text=True, check=True)
    after = resource.getrusage(resource.RUSAGE_CHILDREN)
    return (after.ru_utime + after.ru_stime - before.ru_utime - before.ru_stime) / 50


def main():
    for title, words in [("checked", []), ("copied", ["copy"])]:
        for kind, store in [("64 decimators", decimators()), ("64 filters", filters())]:
            answer = subprocess.run([PROGRAM] + words, input=store, stdout=subprocess.PIPE, text=True, check=True).stdout
            if answer != (store if words else "ok\t1\t64\n"):
                sys.exit("%s, %s: another answer than expected: %r" % (title, kind, answer[:60]))
            count = instructions(words, store) - instructions(words, HEAD)
            print("%s, %s, %d bytes: %.1f instructions a byte" % (title, kind, len(store), count / (len(store) - len(HEAD))), end="")
            if x86.NATIVE:
                times = sorted(seconds(words, store) for _ in range(5))
                print("; a run %.2f ms of processor time, %.2f to %.2f in five" % (1e3 * statistics.median(times), 1e3 * times[0], 1e3 * times[4]), end="")
            print()


if __name__ == "__main__":
    main()
