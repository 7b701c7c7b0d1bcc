"""How programs for x86-64, which Rattle's are, are linked and run on this machine.

On x86-64 its own compilers link them, and they run as they are. On another machine a cross compiler links them, and a Rust
that has the standard library of x86-64; cross.py gets both. There they run through the emulator of the Rattle toolchain.
"""
import functools
import os
import pathlib
import platform
import shutil
import subprocess
import tempfile

ROOT = pathlib.Path(__file__).resolve().parent.parent
OWN = platform.machine() == "x86_64"
TRIPLE = "x86_64-unknown-linux-gnu"
GCC = "x86_64-linux-gnu-gcc"
CROSS = {
    "cc": [GCC],
    "gcc": [GCC],
    "g++": ["x86_64-linux-gnu-g++"],
    "clang": ["clang", "--target=x86_64-linux-gnu"],
    "clang++": ["clang++", "--target=x86_64-linux-gnu"],
}
# What is made and unpacked.
MADE = ROOT / "tests" / "target" / "x86-64"
UNPACKED = MADE / "rust"

for name in [name for name in os.environ if name.startswith("QEMU_")]:
    del os.environ[name]  # as rt does: they would change what the emulator does


class Stop(Exception):
    """Why no test can be run."""


def said(words):
    """What a command prints, without the line's end."""
    return subprocess.run(words, stdout=subprocess.PIPE, check=True, text=True).stdout.strip()


# Running.


@functools.cache
def toolchain():
    """The folder of the Rattle toolchain for this machine. 'rt doc' prints the path of a page in the kit's folder."""
    if not shutil.which("rt"):
        raise Stop("rt is missing: install the Rattle toolchain and put its bin folder on PATH")
    home = pathlib.Path(said(["rt", "doc"])).parent
    own = home / "on" / platform.machine() / "toolchain"
    return own if own.is_dir() else home / "toolchain"


def emulator():
    path = toolchain() / "bin" / "qemu-x86_64"
    if not path.exists():
        raise Stop(f"this machine is {platform.machine()}, not x86-64, and the Rattle toolchain has no emulator for it")
    return path


def by_loader(loader):
    return [str(word) for word in (emulator(), loader, "--library-path", loader.parent)]


def before_program():
    """The words before a program of Rattle's, as rt runs it."""
    return [] if OWN else by_loader(toolchain() / "lib" / "ld-linux-x86-64.so.2")


def before_linked():
    """The words before a program that a compiler for x86-64 has linked here."""
    return [] if OWN else by_loader(pathlib.Path(said([GCC, "-print-file-name=ld-linux-x86-64.so.2"])).resolve())


# Linking.


def compiler(name):
    """The words of a compiler for x86-64."""
    return [name] if OWN else CROSS[name]


def is_installed(name):
    return shutil.which(compiler(name)[0]) is not None


def builds(rustc, sysroot):
    """Whether a rustc takes the standard library of x86-64 from there."""
    with tempfile.TemporaryDirectory() as folder:
        words = [rustc, "--target", TRIPLE, *sysroot, "--emit=metadata", "--out-dir", folder, "-"]
        return subprocess.run(words, input=b"fn main() {}", capture_output=True).returncode == 0


@functools.cache
def rust():
    """The folder of the first cargo on PATH that builds for x86-64, and the flags of its rustc; or None."""
    for folder in map(pathlib.Path, os.get_exec_path()):
        if not all((folder / name).is_file() for name in ("cargo", "rustc")):
            continue
        for sysroot in [], ["--sysroot", str(UNPACKED / "usr")]:
            if builds(folder / "rustc", sysroot):
                return folder, sysroot
    return None


def missing():
    """What links programs for x86-64 and is not here."""
    found = [name for name in (*CROSS["gcc"], *CROSS["g++"]) if not shutil.which(name)]
    return found + ([] if rust() else [f"Rust for {TRIPLE}"])


def need_linking():
    if not OWN and missing():
        help = "'python3 tests/cross.py' gets it on Debian, as root"
        raise Stop(f"this machine is {platform.machine()}, and to link for x86-64 it lacks {' and '.join(missing())}: {help}")


@functools.cache
def cargo_environment():
    """What cargo builds for x86-64 with, and runs what it has built."""
    if OWN:
        return {}
    folder, flags = rust()
    MADE.mkdir(parents=True, exist_ok=True)
    subprocess.run([GCC, "-c", ROOT / "tests" / "stack.c", "-o", MADE / "stack.o"], check=True)
    flags = "\x1f".join([*flags, "-C", f"link-arg={MADE / 'stack.o'}"])
    of_target = f"CARGO_TARGET_{TRIPLE.upper().replace('-', '_')}"
    return {
        "PATH": os.pathsep.join([str(folder), *os.get_exec_path()]),
        "CARGO_BUILD_TARGET": TRIPLE,
        f"{of_target}_LINKER": GCC,
        f"{of_target}_RUNNER": " ".join(before_linked()),
        "CARGO_ENCODED_RUSTFLAGS": flags,
        "CARGO_ENCODED_RUSTDOCFLAGS": flags,
    }


def say_how(linked=False):
    """One line on how programs for x86-64 run here, and are linked."""
    by = f", linked by {GCC} and {said([rust()[0] / 'cargo', '--version'])}" if linked and not OWN else ""
    print("programs for x86-64 run " + ("as they are" if OWN else f"through {emulator()}{by}"), flush=True)
