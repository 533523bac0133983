"""Builds an unproved program over the crates of this repository, without the checks of `rt try`.

    bench/build.py OUT FOLDER [-O0]

FOLDER/line is the program's line of crates.txt. Its code is FOLDER/program, or where that is a folder, a file for each
of its modules. The module is what `rt try` compiles; it is copied when its own compiler begins, which is ended, as is
the check beside it. The module is compiled at -O1; at -O0 in a third of that time.
"""
import os
import shutil
import signal
import subprocess
import sys
import tempfile
import time

OUT = os.path.abspath(sys.argv[1])
FOLDER = os.path.abspath(sys.argv[2])
LEVEL = sys.argv[3] if len(sys.argv) > 3 else "-O1"
TOP = os.path.join(os.path.dirname(os.path.abspath(__file__)), "..")
LINE = open(FOLDER + "/line").read()
CRATE = LINE.split()[0].rstrip(":")
KIT = os.path.dirname(os.path.dirname(os.path.realpath(shutil.which("rattle") or "/opt/rattle/bin/rattle")))
TOOLS = KIT + "/toolchain"
CLANG = [TOOLS + "/bin/clang", "--target=x86_64-unknown-linux-gnu", "--sysroot=" + TOOLS, "-march=x86-64",
         "-ffunction-sections", "-fdata-sections", "--no-default-config", "-no-canonical-prefixes", "-c", "-x", "ir",
         "-fPIE", LEVEL]


def copy_to(top):
    """The crates, with the bench as one more."""
    shutil.copytree(TOP + "/crates", top + "/crates", ignore=shutil.ignore_patterns("out"))
    shutil.copy(TOP + "/HANDLES", top)
    with open(top + "/crates.txt", "w") as out:
        out.write(open(TOP + "/crates.txt").read() + LINE)
    to = f"{top}/crates/{CRATE}/src"
    os.makedirs(to)
    code = FOLDER + "/program"
    if os.path.isdir(code):
        for name in os.listdir(code):
            shutil.copy(f"{code}/{name}", f"{to}/{name}.rt")
    else:
        shutil.copy(code, to + "/main.rt")


def module_in(folder):
    """The module whose compiler has begun, if it is a large one."""
    for where, _, files in os.walk(folder):
        path = where + "/module.bc"
        if "module.bc" in files and any(f.startswith("module-") for f in files) and os.path.getsize(path) > 300_000:
            return path
    return None


def make_module(top, into):
    tmp = tempfile.mkdtemp(dir=top)
    with open(into + ".log", "w") as log:
        made = subprocess.Popen(["rt", "try"], cwd=f"{top}/crates/{CRATE}", env=dict(os.environ, TMPDIR=tmp),
                                stdin=subprocess.DEVNULL, stdout=log, stderr=log, start_new_session=True)
        found = None
        while made.poll() is None and not found:
            time.sleep(0.5)
            for check in children(made.pid, "rattle check"):
                end(check)
            found = module_in(tmp)
        if not found:
            sys.exit(open(into + ".log").read()[-3000:])
        shutil.copy(found, into + ".bc")
        for child in children(made.pid):
            end(child)
        end(made.pid)
        made.wait()


def children(pid, words=""):
    """The children of a process, or those whose command has these words."""
    found = subprocess.run(["pgrep", "-P", str(pid), "-f", words], capture_output=True, text=True)
    return [int(child) for child in found.stdout.split()]


def end(pid):
    """Ends a process that this one began, with its group where it has one of its own."""
    try:
        os.killpg(pid, signal.SIGKILL)
    except ProcessLookupError:
        try:
            os.kill(pid, signal.SIGKILL)
        except ProcessLookupError:
            pass


def link(made, out):
    lib = TOOLS + "/lib/"
    subprocess.run([TOOLS + "/bin/ld.lld", "-pie", "--eh-frame-hdr", "-m", "elf_x86_64", "--gc-sections",
                    "--dynamic-linker", lib + "ld-linux-x86-64.so.2", "-rpath", lib, "-o", out, lib + "Scrt1.o",
                    lib + "crti.o", lib + "crtbeginS.o", "-L" + lib, made, KIT + "/c/libos_c.a",
                    KIT + "/c/liblibc_c.a", lib + "libc.so.6", lib + "libc_nonshared.a", lib + "libgcc.a",
                    lib + "libgcc_s.so.1", lib + "libm.so.6", lib + "crtendS.o", lib + "crtn.o"], check=True)


with tempfile.TemporaryDirectory() as top:
    copy_to(top)
    make_module(top, OUT)
subprocess.run(CLANG + [OUT + ".bc", "-o", OUT + ".o"], check=True)
link(OUT + ".o", OUT)
