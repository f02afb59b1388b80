#!/usr/bin/env python3
"""Holds the WAV programs against sox: what sox writes is read, what is written sox reads and writes again to the byte.

    tools/build wav_in wav_out wav_copy && python3 oracle/sox.py [--store]

Wants sox (Debian's, 14.4.2). --store writes the files that the gate runs: crates/wav_in/stdin, crates/wav_copy/stdin and stdout, and
crates/compare_wav/stdin, which has a header of each kind of file that sox writes, 44 bytes, with the file's length in 4 more. The
gate itself needs no sox.
"""
import os
import struct
import subprocess
import sys
import tempfile

ROOT = os.path.dirname(os.path.dirname(os.path.abspath(__file__)))
RATES = [1, 8000, 11025, 44100, 48000, 192000, 2**31 - 1]
OTHERS = [
    ("24 bits, extensible", ["-b", "24"]),
    ("32 bits, extensible", ["-b", "32"]),
    ("float", ["-e", "float", "-b", "32"]),
    ("stereo", ["-b", "16", "-c", "2"]),
    ("8 bits", ["-b", "8"]),
    ("u-law", ["-e", "u-law"]),
    ("big-endian", ["-b", "16", "-B"]),
]


def sox(*words):
    return subprocess.run(["sox", "-D", "-R"] + list(words), check=True, stdout=subprocess.PIPE, stderr=subprocess.DEVNULL).stdout


def told(option, path):
    return subprocess.check_output(["soxi", option, path], text=True).strip()


def content(path):
    with open(path, "rb") as f:
        return f.read()


def run(name, given):
    program = os.path.join(ROOT, "target", "bin", name)
    with open(given, "rb") as f, tempfile.TemporaryFile() as gave:
        subprocess.run([program], stdin=f, stdout=gave, check=True)
        gave.seek(0)
        return gave.read()


def written_by_sox(work, rate):
    """A file of sox's is read to its samples and copied to its bytes."""
    path = os.path.join(work, "sox.wav")
    raw = os.path.join(work, "in.raw")
    values = [0, 1, -1, 32767, -32768] + [(i * 7919) % 65536 - 32768 for i in range(500)]
    with open(raw, "wb") as f:
        f.write(struct.pack("<%dh" % len(values), *values))
    sox("-t", "raw", "-r", str(rate), "-e", "signed", "-b", "16", "-c", "1", raw, path)
    assert run("wav_in", path) == b"".join(b"x\t%d\n" % v for v in values), rate
    assert run("wav_copy", path) == content(path), rate
    return path


def read_by_sox(work, rate):
    """A file of ours is one of 16 bits and one channel to sox, with its rate and samples, and sox writes it again to the byte."""
    text, path, again = [os.path.join(work, n) for n in ("lines", "ours.wav", "again.wav")]
    values = [(i * 65537) % 2**24 - 2**23 for i in range(300)]
    with open(text, "w") as f:
        f.write("wav\t%d\t8\tall\n" % rate + "".join("y\t%d\t0\n" % v for v in values) + "end\t%d\n" % len(values))
    with open(path, "wb") as f:
        f.write(run("wav_out", text))
    assert [told(o, path) for o in ("-r", "-c", "-b", "-s", "-e")] == ["%g" % rate, "1", "16", "300", "Signed Integer PCM"], rate
    assert sox(path, "-t", "raw", "-") == struct.pack("<300h", *[v >> 8 for v in values]), rate
    sox(path, again)
    assert content(again) == content(path), rate


def other(work, words):
    path = os.path.join(work, "other.wav")
    sox("-n", "-r", "48000", *words, path, "synth", "0.0005", "sine", "1000")
    assert run("wav_in", path) == b"bad\t90\n" and run("wav_copy", path) == b"bad\t90\n", words
    return content(path)


def main():
    with tempfile.TemporaryDirectory() as work:
        for rate in RATES:
            written_by_sox(work, rate)
            read_by_sox(work, rate)
        small = os.path.join(work, "small.wav")
        sox("-n", "-r", "48000", "-b", "16", "-c", "1", small, "synth", "0.0005", "sine", "1000")
        kinds = [content(small), content(written_by_sox(work, 8000))] + [other(work, words) for _, words in OTHERS]
        if "--store" in sys.argv:
            for name in ["wav_in/stdin", "wav_copy/stdin", "wav_copy/stdout"]:
                with open(os.path.join(ROOT, "crates", name), "wb") as f:
                    f.write(content(small))
            with open(os.path.join(ROOT, "crates", "compare_wav", "stdin"), "wb") as f:
                f.write(b"".join(k[:44] + struct.pack("<I", len(k)) for k in kinds))
    print("%d rates, written by sox and read, written and read by sox, to the byte; %d other kinds are 90: 0 differ" % (len(RATES), len(OTHERS)))


main()
