"""Replays a recording through the proved decimator, and says in words what was wrong with it.

    samples/replay RECORDING >ANSWER      a file
    ... | samples/replay                  a pipe, also a live one: what has come is answered before more is read
    samples/replay --build                proves and builds the program again, after a change of its sources

The answer goes to standard output as the program gives it: `y`, value, count for each output, then `end` and how many, or `bad`, line,
refusal number and the bad field's place. docs/REPLAY.md has the language, docs/REFUSALS.md the numbers.

Exit status: 0 the answer ends with `end`; 1 with `bad`, and standard error says why; 2 with neither (no such file, a full disk, a read that
failed, a program that isn't built), and standard error says what is known.

The program is target/bin/replay, made at first use by `tools/build replay`. A file is read and written by the program itself; of the answer only
the last line is looked at here.
"""
import collections
import errno
import fcntl
import os
import platform
import re
import select
import shutil
import signal
import stat
import struct
import subprocess
import sys
import termios
import threading
import time

HERE = os.path.dirname(os.path.realpath(__file__))
ROOT = os.path.dirname(HERE)
PROGRAM = os.path.join(ROOT, "target", "bin", "replay")
CHUNK = 1 << 16
KEPT = 4 << 20   # of an input that isn't a file
LAST = 1024   # of the answer; its last line is far shorter
END, BAD, NEITHER = 0, 1, 2
STDIN = 3   # where samples/replay puts standard input


def say(words):
    print("samples/replay: " + words, file=sys.stderr, flush=True)


class Failed(Exception):
    """Neither `end` nor `bad`, and why."""


# The program

def needed():
    """The project's crates that the program stands on, itself among them."""
    with open(os.path.join(ROOT, "crates.txt")) as lines:
        uses = dict(re.fullmatch(r"(\w+)[^:]*:(.*)", line.split("#")[0].strip()).groups() for line in lines if ":" in line.split("#")[0])
    found, left = set(), ["replay"]
    while left:
        name = left.pop()
        if name in uses and name not in found:
            found.add(name)
            left += uses[name].split()
    return found


def build():
    """`tools/build replay`, which says nothing until it is done."""
    if not shutil.which("rt"):
        raise Failed("the program is to be built, and the Rattle toolchain's `rt` is not in PATH")
    began = said = time.monotonic()
    say("proving and building the program with `tools/build replay`: %d crates, some minutes from nothing" % len(needed()))
    run = subprocess.Popen([os.path.join(ROOT, "tools", "build"), "replay"], cwd=ROOT, stdin=subprocess.DEVNULL, stdout=subprocess.PIPE, stderr=subprocess.STDOUT)
    last, part = collections.deque(maxlen=12), b""
    while True:
        ready = select.select([run.stdout], [], [], 15)[0]
        read = os.read(run.stdout.fileno(), CHUNK) if ready else b""
        if ready and not read:
            break
        *lines, part = (part + read).split(b"\n")
        for line in (l.decode(errors="replace") for l in lines):
            last.append(line)
        if time.monotonic() - said >= 15:
            say("  at it for %d s" % (time.monotonic() - began))
            said = time.monotonic()
    if run.wait() != 0 or not os.access(PROGRAM, os.X_OK):
        raise Failed("`tools/build replay` failed:\n" + "\n".join(last))
    say("built in %d s: %s" % (time.monotonic() - began, PROGRAM))


def program():
    return [PROGRAM] if platform.machine() == "x86_64" else [os.path.join(HERE, "run"), "replay"]


# What goes in

class File:
    """A recording that the program reads itself."""

    def __init__(self, fd):
        self.fd, self.start, self.failure = fd, os.lseek(fd, 0, os.SEEK_CUR), None

    def line(self, number):
        """A line's text, without its newline."""
        at, before, kept = self.start, 0, b""
        while True:
            part = os.pread(self.fd, CHUNK, at)
            at += len(part)
            kept += part
            lines = kept.count(b"\n")
            if not part or before + lines >= number:
                return nth(kept, number - before)
            cut = kept.rfind(b"\n") + 1
            before, kept = before + lines, kept[cut:]


class Pipe(threading.Thread):
    """Anything else: what has come is handed on at once. The first of it is kept, for the text of a bad line; what follows goes by the kernel."""

    def __init__(self, fd):
        super().__init__(daemon=True)
        self.source, self.failure = fd, None
        self.kept, self.size = [], 0
        self.fd, self.into = os.pipe()
        widened(self.into)

    def begin(self, run):
        os.close(self.fd)
        self.child = run
        self.start()

    def run(self):
        try:
            while self.size < KEPT:
                part = waiting(self.source, os.read, self.source, CHUNK)
                if not part:
                    break
                self.kept.append(part)
                self.size += len(part)
                write(self.into, part)
            else:
                moved_all(self.source, self.into)
        except BrokenPipeError:
            pass
        except OSError as error:
            self.failure = "a read of the input failed: %s" % error.strerror
            self.child.kill()   # so that it doesn't take this for the input's end
        os.close(self.into)

    def line(self, number):
        kept = b"".join(self.kept)
        return nth(kept, number) if number <= kept.count(b"\n") or self.size < KEPT else None


def nth(text, number):
    lines = text.split(b"\n")
    return lines[number - 1] if 1 <= number <= len(lines) else None


def waiting(fd, call, *words):
    """A call that reads fd. Interrupted it is tried again (by Python), and a descriptor that doesn't block is waited for."""
    while True:
        try:
            return call(*words)
        except BlockingIOError:
            select.select([fd], [], [])


def write(fd, data):
    while data:
        try:
            data = data[os.write(fd, data):]
        except BlockingIOError:
            select.select([], [fd], [])


def moved(source, into, size):
    """Up to so many bytes from one descriptor to another: how many, 0 at the end. By the kernel where it can."""
    try:
        return os.splice(source, into, size)
    except (AttributeError, OSError) as error:
        if isinstance(error, OSError) and error.errno not in (errno.EINVAL, errno.EAGAIN, errno.ENOSYS):
            raise
    part = waiting(source, os.read, source, min(size, CHUNK))
    write(into, part)
    return len(part)


def moved_all(source, into):
    while moved(source, into, KEPT):
        pass


def widened(pipe):
    """Room for a megabyte in a pipe, where the system gives it: fewer turns."""
    try:
        fcntl.fcntl(pipe, 1031, 1 << 20)   # F_SETPIPE_SZ
    except OSError:
        pass


def opened(path):
    """The recording: a path, or None for standard input."""
    try:
        fd = STDIN if path is None else os.open(path, os.O_RDONLY | os.O_CLOEXEC)
        mode = os.fstat(fd).st_mode
    except OSError as error:
        raise Failed("%s: %s" % (path or "standard input", error.strerror))
    if stat.S_ISDIR(mode):
        raise Failed("%s is a folder" % (path or "standard input"))
    return File(fd) if stat.S_ISREG(mode) else Pipe(fd)


# What comes out

def answer_file():
    """The answer for reading and where it begins, where standard output is a file; else None."""
    if not stat.S_ISREG(os.fstat(1).st_mode):
        return None
    try:
        again = os.open("/proc/self/fd/1", os.O_RDONLY | os.O_CLOEXEC)
    except OSError:
        return None
    return again, max(os.lseek(1, 0, os.SEEK_CUR), 0)


def copied(source):
    """Hands on what the program writes, and gives the last of it: what stands in the pipe goes by the kernel but for its last bytes."""
    last = b""
    widened(source)
    while True:
        part = os.read(source, 4 * LAST)
        if not part:
            return last
        write(1, part)
        last = (last + part)[-LAST:]
        stands = struct.unpack("i", fcntl.ioctl(source, termios.FIONREAD, bytes(4)))[0]
        while stands > 4 * LAST:
            stands -= moved(source, 1, stands - LAST)


def ran(recording):
    """The answer's last bytes, and how the program ended."""
    file = answer_file() if isinstance(recording, File) else None
    run = subprocess.Popen(program(), stdin=recording.fd, stdout=None if file else subprocess.PIPE)
    if isinstance(recording, Pipe):
        recording.begin(run)
    try:
        if not file:
            last = copied(run.stdout.fileno())
            return last, run.wait()
        status, end = run.wait(), os.lseek(1, 0, os.SEEK_CUR)
        begin = file[1] if end >= file[1] else 0
        return os.pread(file[0], min(LAST, end - begin), max(begin, end - LAST)), status
    except OSError as error:
        run.kill()
        if isinstance(error, BrokenPipeError):
            raise
        raise Failed("the answer can't be written: %s" % error.strerror)
    except KeyboardInterrupt:
        run.kill()
        raise


# What it says

def refusals():
    """{number: (when, what to do)} of docs/REFUSALS.md"""
    try:
        with open(os.path.join(ROOT, "docs", "REFUSALS.md"), encoding="utf-8") as lines:
            rows = [[cell.strip() for cell in line.split("|")] for line in lines if re.match(r"\| \d+ \|", line)]
    except OSError:
        return {}
    return {int(row[1]): (row[2], row[3]) for row in rows}


def shown(text):
    """Bytes for a reader: a tab as <tab>, what is no letter by its code."""
    words = "".join("<tab>" if b == 9 else chr(b) if 32 <= b < 127 else "<byte %d>" % b for b in text[:100])
    return words + (" .." if len(text) > 100 else "") if words else "(empty)"


def explained(line, number, place, text):
    when, what = refusals().get(number, ("a number that docs/REFUSALS.md lacks", ""))
    words = ["line %d is refused with %d: %s" % (line, number, when)]
    if text is not None:
        words.append("  line %d: %s" % (line, shown(text)))
        fields = text.split(b"\t")
        if 1 <= place <= len(fields):
            words.append("  field %d (the name is 1): %s" % (place, shown(fields[place - 1])))
    else:
        words.append("  %sits text has passed: of a pipe the first 4 MB are kept" % ("field %d (the name is 1); " % place if place else ""))
    return "\n".join(words + ["  what to do: " + what] * bool(what))


def stopped(recording, status):
    """What is known where the answer has neither `end` nor `bad`."""
    if recording.failure:
        return recording.failure
    if status < 0:
        return "the program was ended by signal %d (%s) before `end`" % (-status, signal.strsignal(-status))
    room = os.fstatvfs(1)
    full = stat.S_ISREG(os.fstat(1).st_mode) and room.f_blocks and not room.f_bavail
    return "the answer has neither `end` nor `bad`: " + ("its disk is full" if full else "a read or a write failed")


def replay(path):
    try:
        os.fstat(1)   # first: a file that is opened would take its place
    except OSError:
        raise Failed("standard output is closed")
    recording = opened(path)
    last, status = ran(recording)
    if re.search(rb"(?:^|\n)end\t\d+\n\Z", last) and not recording.failure:
        return END
    bad = re.search(rb"(?:^|\n)bad\t(\d+)\t(\d+)(?:\t(\d+))?\n\Z", last)
    if bad:
        line, number, place = (int(n or 0) for n in bad.groups())
        say(explained(line, number, place, recording.line(line)))
        return BAD
    raise Failed(stopped(recording, status))


def main(words):
    if words in (["--help"], ["-h"]):
        print(__doc__.strip(), flush=True)
        return END
    if words == ["--build"]:
        build()
        return END
    if len(words) > 1 or words and words[0].startswith("-") and words[0] != "-":
        raise Failed("one recording, or none for standard input; --help says more")
    if not os.access(PROGRAM, os.X_OK):
        build()
    return replay(None if words in ([], ["-"]) else words[0])


if __name__ == "__main__":
    try:
        status = main(sys.argv[1:])
    except Failed as failure:
        say(str(failure))
        status = NEITHER
    except BrokenPipeError:
        status = NEITHER   # whoever read the answer went away
    except KeyboardInterrupt:
        say("interrupted")
        status = NEITHER
    sys.stderr.flush()
    os._exit(status)
