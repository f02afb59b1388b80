"""x86-64 programs on another processor: Rust compiled for x86-64, and instructions counted under QEMU.

A rustc with a std for x86-64 and an emulator that takes plugins are Debian 12's rustc-web and qemu-user where the machine has none of its own.
They are fetched with apt, which must know that Debian's archive, and not installed: they stand in DEBIAN, some 770 MB with the Rust and 120 MB without
it, outside target/, which the gate removes. Programs are linked and run with the toolchain's own linker and C library, as the proved ones are.
"""
import glob
import os
import platform
import re
import shutil
import subprocess
import sys
import urllib.request

HERE = os.path.dirname(os.path.abspath(__file__))
ROOT = os.path.dirname(HERE)
WORK = os.path.join(ROOT, "target", "bench")
CACHE = os.environ.get("XDG_CACHE_HOME") or os.path.join(os.path.expanduser("~"), ".cache")
DEBIAN = os.path.join(CACHE, "mittenload", "debian")
NATIVE = platform.machine() == "x86_64"
TARGET = "x86_64-unknown-linux-gnu"
# Each with the version that it was used in here; whichever revision of that the archive has is taken.
RUST = {"rustc-web": "1.85.0", "libstd-rust-web-1.85": "1.85.0", "libstd-rust-web-dev": "1.85.0", "libllvm19": "1:19.1.7"}
QEMU = {"qemu-user": "1:7.2", "libcapstone4": "4.0.2", "liburing2": "2.3"}


def stop(words):
    sys.exit("bench: " + words)


def need(program, how):
    """A program that the machine must have."""
    if not shutil.which(program):
        stop("no %s here: %s" % (program, how))


def need_built(path, name):
    if not os.path.exists(os.path.join(ROOT, path)):
        stop("no %s: tools/build %s" % (path, name))


def kit():
    """The toolchain's folder."""
    return os.path.dirname(os.path.dirname(subprocess.check_output(["rt", "doc"], text=True).strip()))


def tools():
    """The toolchain's compiler, linker and C library."""
    return os.path.join(kit(), "on", platform.machine(), "toolchain")


def revision(package, version):
    """The whole version of a package that apt would fetch."""
    need("apt-cache", "it fetches Debian's packages")
    said = subprocess.run(["apt-cache", "madison", package], stdout=subprocess.PIPE, text=True).stdout
    found = [line.split("|")[1].strip() for line in said.splitlines() if "|" in line]
    fit = [v for v in found if re.match(re.escape(version) + r"([^0-9]|$)", v)]
    if not fit:
        stop("apt has no %s %s (it has: %s). It is Debian 12's; let apt know that archive, or bring your own rustc, num-traits or qemu-user"
             % (package, version, ", ".join(found) or "none"))
    return fit[0]


def unpack(packages, foreign=()):
    """Debian packages' files, below DEBIAN; a foreign one is x86-64's."""
    for package, version in packages.items():
        said = subprocess.run(["apt-get", "download", "--print-uris", "%s=%s" % (package, revision(package, version))], stdout=subprocess.PIPE, text=True).stdout
        url = re.search(r"'(\S+)'", said).group(1)
        for url in [url] + [re.sub(r"_[a-z0-9]+\.deb$", "_amd64.deb", url)] * (package in foreign):
            kept = os.path.join(DEBIAN, os.path.basename(url))
            if os.path.exists(kept):
                continue
            os.makedirs(DEBIAN, exist_ok=True)
            print("bench: fetching %s into %s" % (os.path.basename(url), DEBIAN), file=sys.stderr)
            try:
                urllib.request.urlretrieve(url, kept + ".part")
            except OSError as error:
                stop("can't fetch %s: %s" % (url, error))
            subprocess.run(["dpkg", "-x", kept + ".part", DEBIAN], check=True)
            os.rename(kept + ".part", kept)


def script(name, text):
    path = os.path.join(WORK, name)
    with open(path, "w") as out:
        out.write("#!/bin/sh\n" + text)
    os.chmod(path, 0o755)
    return path


def own(program, name):
    """A script that runs one of Debian's programs with Debian's libraries."""
    libraries = glob.glob(os.path.join(DEBIAN, "usr", "lib", "*-linux-gnu"))[0]
    return script(name, "LD_LIBRARY_PATH=%s exec %s/usr/bin/%s \"$@\"\n" % (libraries, DEBIAN, program))


def rustc():
    """A compiler for x86-64: the machine's own on x86-64, else Debian's."""
    if NATIVE:
        need("rustc", "rustup has one, or Debian's rustc; 1.85 or newer")
        return "rustc"
    unpack(RUST, foreign=["libstd-rust-web-dev"])
    return own("rustc", "rustc")


def emulator():
    """An emulator that takes plugins of this form (QEMU 5 to 8): the machine's own where it has one, else Debian 12's."""
    here = shutil.which("qemu-x86_64")
    said = subprocess.run([here, "--version"], stdout=subprocess.PIPE, text=True).stdout if here else ""
    version = re.search(r"version (\d+)", said)
    if version and 5 <= int(version.group(1)) <= 8:
        return here
    unpack(QEMU)
    return own("qemu-x86_64", "qemu")


def linker():
    """A script that links for x86-64. The C library holds what the last four of the names that rustc asks for held once."""
    at, link = tools(), os.path.join(WORK, "link")
    os.makedirs(link, exist_ok=True)
    for name, there in [("libc.so", "libc.so.6"), ("libm.so", "libm.so.6"), ("libgcc_s.so", "libgcc_s.so.1")]:
        if not os.path.lexists(os.path.join(link, name)):
            os.symlink(os.path.join(at, "lib", there), os.path.join(link, name))
    for name in ["util", "rt", "pthread", "dl"]:
        subprocess.run([os.path.join(at, "bin", "llvm-ar"), "crs", os.path.join(link, "lib%s.a" % name)], check=True)
    start, end = [" ".join(os.path.join(at, "lib", o) for o in names)
                  for names in [["Scrt1.o", "crti.o", "crtbeginS.o"], ["libc_nonshared.a", "crtendS.o", "crtn.o"]]]
    words = '%s/bin/ld.lld -dynamic-linker /lib64/ld-linux-x86-64.so.2 -L %s %s "$@" -lgcc_s -lc %s' % (at, link, start, end)
    return script("ld", '[ "$1" != -flavor ] || shift 2\nexec %s\n' % words)


def marks(program, words, stdout):
    """The instruction counts at each mark of a program: under the emulator where the machine has one or is no x86-64, else by valgrind's
    callgrind, which begins a new file at each call of `bench_mark`."""
    if shutil.which("qemu-x86_64") or not NATIVE:
        return counts(program, words, stdout=stdout)
    said = os.path.join(WORK, "marks")
    for old in glob.glob(said + "*"):
        os.remove(old)
    valgrind = ["valgrind", "--quiet", "--tool=callgrind", "--dump-before=bench_mark", "--callgrind-out-file=" + said]
    subprocess.run(valgrind + [program] + words, stdout=stdout, stderr=subprocess.DEVNULL, check=True)
    total, found = 0, []
    for number in range(1, len(glob.glob(said + ".*")) + 1):
        with open("%s.%d" % (said, number)) as part:
            total += int(re.search(r"^totals: (\d+)", part.read(), re.M).group(1))
        found.append(total)
    return found


def total(program, words, stdin=None, stdout=None):
    """The instructions of a whole run: under the emulator where the machine has one or is no x86-64, else by callgrind."""
    if shutil.which("qemu-x86_64") or not NATIVE:
        return counts(program, words, stdin, stdout)[-1]
    valgrind = ["valgrind", "--tool=callgrind", "--callgrind-out-file=/dev/null", program]
    said = subprocess.run(valgrind + words, stdin=stdin, stdout=stdout, stderr=subprocess.PIPE, text=True, check=True).stderr
    return int(re.search(r"Collected : (\d+)", said).group(1))


def counts(program, words, stdin=None, stdout=None):
    """Runs a program under the emulator and gives the instruction counts that it wrote: at each getpid, and at its end."""
    need("cc", "apt-get install gcc")
    plugin, said, at = os.path.join(WORK, "count.so"), os.path.join(WORK, "counts"), os.path.join(tools(), "lib")
    subprocess.run(["cc", "-shared", "-fPIC", "-O2", "-o", plugin, os.path.join(HERE, "count.c")], check=True)
    loader = [] if NATIVE else [os.path.join(at, "ld-linux-x86-64.so.2"), "--library-path", at]
    run = [emulator(), "-plugin", plugin] + loader + [program]
    subprocess.run(run + words, env=dict(os.environ, COUNTS=said), stdin=stdin, stdout=stdout, check=True)
    with open(said) as lines:
        return [int(line) for line in lines]
