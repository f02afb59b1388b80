#!/usr/bin/env python3
"""Holds samples/replay to its help: exit status and words for every way that a replay ends, on files, pipes and odd descriptors.

    python3 samples/replay_cases.py           wants target/bin/replay (`tools/build replay`)
    python3 samples/replay_cases.py --large   and what it costs beside the bare program on 100 MB
"""
import os
import resource
import signal
import socket
import struct
import subprocess
import sys
import tempfile
import time

from model import replay as model

HERE = os.path.dirname(os.path.abspath(__file__))
FRONT = os.path.join(HERE, "replay")
PLUG = os.path.join(HERE, "pulled_plug.txt")
OPEN = b"cic\t0\t1\t0\n"


def run(words=(), **more):
    if "input" not in more:
        more.setdefault("stdin", subprocess.DEVNULL)
    more.setdefault("stdout", subprocess.PIPE)
    return subprocess.run([FRONT] + list(words), stderr=subprocess.PIPE, timeout=60, **more)


def held(gave, status, *words):
    said = gave.stderr.decode()
    assert gave.returncode == status, (gave.returncode, said)
    for word in words:
        assert word in said, (word, said)
    if status == 0:
        assert said == "", said


def good(folder):
    with open(PLUG, "rb") as file:
        data = file.read()
    want = model(data)
    for gave in [run([PLUG]), run(["-"], input=data), run(stdin=open(PLUG, "rb")), run(input=data), run(["../" + os.path.basename(HERE) + "/pulled_plug.txt"], cwd=HERE)]:
        held(gave, 0)
        assert gave.stdout == want
    link = os.path.join(folder, "link")
    os.symlink(FRONT, link)
    gave = subprocess.run([link, PLUG], stdout=subprocess.PIPE, cwd="/")
    assert gave.returncode == 0 and gave.stdout == want
    for source in (dict(words=[PLUG]), dict(input=data)):
        path = os.path.join(folder, "answer")
        with open(path, "wb") as out:
            out.write(b"end\t7\n")
            out.flush()
            held(run(stdout=out, **source), 0)
        with open(path, "rb") as out:
            assert out.read() == b"end\t7\n" + want
        with open(path, "ab") as out:
            held(run(stdout=out, **source), 0)
        with open(path, "rb") as out:
            assert out.read() == b"end\t7\n" + want + want
    held(run(input=b""), 0)
    assert run(["--help"]).returncode == 0 and b"Exit status" in run(["--help"]).stdout


def refused(folder):
    """Each number that a replay's line can give, as a file, as a pipe and far into a pipe."""
    cases = [(b"cic\t9\t1\t0\n", 10, "order above 8"), (b"cic\t1\t0\t0\n", 11, "delay 0"), (b"cic\t1\t1\t65536\n", 12, "rate above"),
             (b"x\t3\n", 71, "no `cic`"), (OPEN + OPEN, 71, "second"), (b"a" * 65 + b"\n", 72, "over 64 bytes"), (b"\n", 73, "(empty)"),
             (b"cic\t0\t1\t0\r\n", 75, "<byte 13>"), (b"X\t3\n", 73, "unknown"), (b"rate\n", 74, "number of fields"), (OPEN + b"x\t03\n", 75, "field 2 (the name is 1): 03"),
             (OPEN + b"x\t2147483648\n", 76, "field 2 (the name is 1): 2147483648"), (b"cic\t1\t1\t-1\n", 76, "field 4 (the name is 1): -1"), (OPEN + b"x\t3", 77, "unterminated")]
    path = os.path.join(folder, "bad")
    for data, number, words in cases:
        line = data.count(b"\n") + (not data.endswith(b"\n"))
        with open(path, "wb") as file:
            file.write(data)
        for gave in [run([path]), run(input=data)]:
            held(gave, 1, "line %d is refused with %d: " % (line, number), words, "what to do: ")
            assert gave.stdout == model(data)
    far = OPEN + b"x\t5\n" * 1000000
    held(run(input=far + b"x\t5x\n" + far), 1, "line 1000002 is refused with 75", "line 1000002: x<tab>5x")
    farther = far + b"x\t5\n" * 1000000
    held(run(input=farther + b"x\t5x\n" + far), 1, "line 2000002 is refused with 75", "field 2 (the name is 1)")
    with open(path, "wb") as file:
        file.write(far + b"x\t5x\n" + far)
    with open(os.path.join(folder, "out"), "wb") as out:
        held(run([path], stdout=out), 1, "line 1000002: x<tab>5x")


def neither(folder):
    held(run([os.path.join(folder, "none")]), 2, "No such file")
    held(run([folder]), 2, "is a folder")
    held(run(stdin=os.open(folder, os.O_RDONLY)), 2, "is a folder")
    held(run(["a", "b"]), 2, "--help")
    held(run(preexec_fn=lambda: os.close(0)), 2, "standard input")
    held(run([PLUG], preexec_fn=lambda: os.close(1)), 2, "standard output is closed")
    with open("/dev/full", "wb") as full:
        held(run([PLUG], stdout=full), 2, "No space left")
        held(run(input=OPEN + b"x\t5\n", stdout=full), 2, "No space left")
    limit = os.path.join(folder, "limit")
    with open(limit, "wb") as out:
        held(run([PLUG], stdout=out, preexec_fn=lambda: resource.setrlimit(resource.RLIMIT_FSIZE, (500, 500))), 2, "File size limit")
    held(run(stdin=os.open(os.path.join(folder, "limit"), os.O_WRONLY)), 2)
    gave = subprocess.Popen([FRONT, PLUG], stdout=subprocess.PIPE, stderr=subprocess.PIPE)
    gave.stdout.close()
    assert gave.wait(timeout=60) == 2 and gave.stderr.read() == b""


def odd(folder):
    """A descriptor that doesn't block is waited for; a read that is interrupted is tried again; a live pipe is answered at once."""
    into, out_of = os.pipe2(os.O_NONBLOCK | os.O_CLOEXEC)
    run_ = subprocess.Popen([FRONT], stdin=into, stdout=subprocess.PIPE)
    os.close(into)
    os.write(out_of, OPEN + b"x\t5\nx")
    assert run_.stdout.readline() == b"y\t5\t0\n"
    os.write(out_of, b"\t6\n")
    assert run_.stdout.readline() == b"y\t6\t0\n"
    os.close(out_of)
    assert run_.stdout.read() == b"end\t2\n" and run_.wait(timeout=60) == 0
    # A socket with a time limit is interrupted by a stop and a continue.
    here, there = socket.socketpair()
    there.setsockopt(socket.SOL_SOCKET, socket.SO_RCVTIMEO, struct.pack("ll", 100, 0))
    run_ = subprocess.Popen([FRONT], stdin=there, stdout=subprocess.PIPE)
    here.sendall(OPEN + b"x\t5\n")
    assert run_.stdout.readline() == b"y\t5\t0\n"
    time.sleep(0.3)
    os.kill(run_.pid, signal.SIGSTOP)
    time.sleep(0.3)
    os.kill(run_.pid, signal.SIGCONT)
    time.sleep(0.3)
    here.sendall(b"x\t6\n")
    assert run_.stdout.readline() == b"y\t6\t0\n"
    here.close()
    assert run_.stdout.read() == b"end\t2\n" and run_.wait(timeout=60) == 0
    # A read that fails is not the input's end: a socket that is reset.
    server = socket.create_server(("127.0.0.1", 0))
    here = socket.create_connection(server.getsockname())
    there = server.accept()[0]
    run_ = subprocess.Popen([FRONT], stdin=there, stdout=subprocess.PIPE, stderr=subprocess.PIPE)
    there.close()
    here.sendall(OPEN + b"x\t5\n")
    assert run_.stdout.readline() == b"y\t5\t0\n"
    here.setsockopt(socket.SOL_SOCKET, socket.SO_LINGER, struct.pack("ii", 1, 0))
    here.close()
    out, said = run_.communicate(timeout=60)
    assert run_.returncode == 2 and out == b"" and b"reset" in said, (run_.returncode, out, said)


def killed(folder):
    """A front that is killed leaves no `end` behind that the input doesn't have."""
    path = os.path.join(folder, "killed")
    with open(path, "wb") as out:
        run_ = subprocess.Popen([FRONT], stdin=subprocess.PIPE, stdout=out, bufsize=0)
    run_.stdin.write(OPEN + b"x\t5\n")
    while os.path.getsize(path) == 0:
        time.sleep(0.01)
    os.kill(run_.pid, signal.SIGKILL)
    run_.wait()
    run_.stdin.close()
    time.sleep(0.5)
    with open(path, "rb") as out:
        assert out.read() == b"y\t5\t0\n"


def large(folder):
    path, size = os.path.join(folder, "large"), 100_000_000
    for rate in (0, 63):
        block = b"".join(b"x\t%d\n" % (n * 7919 % 20011 - 10000) for n in range(100000))
        with open(path, "wb") as out:
            out.write(b"cic\t3\t1\t%d\n" % rate)
            while out.tell() < size:
                out.write(block)
        for title, words, piped in [("file to file", "%s >%s", 0), ("file to pipe", "%s | cat >%s", 0), ("pipe to pipe", "cat %s | PROGRAM | cat >%s", 1)]:
            times = []
            for name in (os.path.join(HERE, "..", "target", "bin", "replay"), FRONT):
                line = words % (path, os.path.join(folder, "out"))
                line = line.replace("PROGRAM", name) if piped else name + (" <" if name != FRONT else " ") + line
                best = (1e9,)
                for _ in range(3):
                    began, before = time.monotonic(), resource.getrusage(resource.RUSAGE_CHILDREN)
                    subprocess.run(["sh", "-c", line], check=True)
                    after = resource.getrusage(resource.RUSAGE_CHILDREN)
                    best = min(best, (time.monotonic() - began, after.ru_utime + after.ru_stime - before.ru_utime - before.ru_stime))
                times.append(best)
            print("rate %2d, %s: %.2f s bare, %.2f s by samples/replay; of the processors %.2f and %.2f" % (rate, title, times[0][0], times[1][0], times[0][1], times[1][1]))


def main():
    with tempfile.TemporaryDirectory() as folder:
        if "--large" in sys.argv[1:]:
            large(folder)
            return
        for part in (good, refused, neither, odd, killed):
            part(folder)
    print("samples/replay: every way of ending as its help says")


if __name__ == "__main__":
    main()
