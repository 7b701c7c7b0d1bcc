#!/usr/bin/env python3
"""Tests what 'make install' installs, in an empty prefix, and the README's commands for a host in C.

The library is target/staticlib/libhost.a, which 'tools/build host' writes; the environment variable SGQ_LIB may name
another archive. Each test runs in a copy of what 'make' needs, where a stand-in for rt makes that archive. The wrapper in
Rust is built over what is installed, and the man pages are held to the header. Ends with 'N passed, M failed'.
"""
import os
import pathlib
import re
import shutil
import subprocess
import sys
import tempfile

import machine
from kit import LIBRARY, ROOT, Stop, need_library, run_tests

HEADER = (ROOT / "include" / "sgq.h").read_text()
README = (ROOT / "README.md").read_text()
PAGES = ROOT / "install" / "man"
VERSION = ".".join(re.findall(r"^#define SGQ_VERSION_(?:MAJOR|MINOR|PATCH) (\d+)$", HEADER, re.MULTILINE))
RT = """#!/bin/sh
echo called >>"{calls}"
mkdir -p out && cp "{library}" out/libhost.a
"""
# Where programs for x86-64 do not run as they are: the cross compiler, and around what it links a script that runs it.
CC = """#!/bin/sh
{gcc} "$@" || exit
made=a.out
while [ $# -gt 0 ]; do
    case $1 in -shared) exit ;; -o) made=$2 ;; esac
    shift
done
mv "$made" "$made{linked}"
cat >"$made" <<'END'
#!/bin/sh
exec {before}${{LD_LIBRARY_PATH:+:$LD_LIBRARY_PATH}} "$0{linked}" "$@"
END
chmod +x "$made"
"""
LINKED = "" if machine.OWN else ".x86-64"  # the end of the name of what cc has linked


class House:
    """A folder with the Makefile and what it names, and a stand-in for rt; the archive is not built yet."""

    def __init__(self, folder):
        self.root, self.bin, self.calls = folder / "house", folder / "bin", folder / "calls"
        for name in ("include", "install", "examples"):
            shutil.copytree(ROOT / name, self.root / name)
        for name in ("Makefile", "crates.txt"):
            shutil.copy(ROOT / name, self.root)
        (self.root / "tools").mkdir()
        shutil.copy(ROOT / "tools" / "build", self.root / "tools")
        (self.root / "crates" / "host").mkdir(parents=True)
        self.bin.mkdir()
        self.stand_in("rt", RT.format(calls=self.calls, library=LIBRARY))
        if not machine.OWN:
            self.stand_in("cc", CC.format(gcc=machine.GCC, linked=LINKED, before=" ".join(machine.before_linked())))

    def stand_in(self, name, text):
        (self.bin / name).write_text(text)
        (self.bin / name).chmod(0o755)

    def sh(self, text, **more):
        """Runs a script in the house; SGQ_LIB is not handed on, and pkg-config knows only what the script says."""
        environment = {name: value for name, value in os.environ.items() if name != "SGQ_LIB"}
        environment.update(PATH=f"{self.bin}:{os.environ['PATH']}", PKG_CONFIG_LIBDIR="/nowhere", **more)
        return subprocess.run(["sh", "-eu", "-c", text], cwd=self.root, capture_output=True, text=True, env=environment)


def why_not(ended, good=True):
    """What a command said where it did not end well or what it did is not good, or None."""
    if ended.returncode == 0 and good:
        return None
    return f"it ended with status {ended.returncode}\n{ended.stdout}{ended.stderr}".rstrip()


def files_below(folder):
    return sorted(str(path.relative_to(folder)) for path in folder.rglob("*") if not path.is_dir())


def expected_files():
    abi = VERSION.rpartition(".")[0]
    pages = [f"share/man/man{page.suffix[1:]}/{page.name}" for page in PAGES.iterdir()]
    shared = [f"lib/libsgq.so{end}" for end in ("", f".{abi}", f".{VERSION}")]
    return sorted(["include/sgq.h", "lib/libsgq.a", "lib/pkgconfig/sgq.pc", *shared, *pages])


# What is installed.


def test_install(tally, house, prefix):
    ended = house.sh(f"make install PREFIX={prefix}")
    tally.add("make install", why_not(ended))
    tally.add("the archive was built once", None if house.calls.read_text().count("called") == 1 else "rt was not called once")
    found = files_below(prefix)
    tally.add("what is installed", None if found == expected_files() else f"it is {found}")
    same = (prefix / "lib" / "libsgq.a").read_bytes() == LIBRARY.read_bytes()
    tally.add("the archive is the proved one", None if same else "it is another")
    for name in ("libsgq.so", f"libsgq.so.{VERSION.rpartition('.')[0]}"):
        tally.add(f"{name} leads to the library", None if (prefix / "lib" / name).is_file() else "it does not")
    ended = house.sh("pkg-config --modversion sgq", PKG_CONFIG_PATH=str(prefix / "lib" / "pkgconfig"))
    tally.add("the version", why_not(ended, ended.stdout.strip() == VERSION))


def test_symbols(tally, house, prefix):
    """The shared object shows the calls that the header declares, and nothing else."""
    ended = house.sh(f"nm -D --defined-only {prefix}/lib/libsgq.so")
    shown = sorted(line.split()[-1] for line in ended.stdout.splitlines())
    declared = sorted(re.findall(r"^SGQ_MUST_USE \w+ (\w+)\(", HEADER, re.MULTILINE))
    tally.add("what the shared object shows", why_not(ended, shown == declared and len(declared) > 0))


def test_staged(tally, house, folder):
    """DESTDIR goes before every path and into no file; what is uninstalled is gone."""
    where = f"PREFIX=/opt/sgq DESTDIR={folder}"
    tally.add("make install to DESTDIR", why_not(house.sh(f"make install {where}")))
    found = files_below(folder / "opt" / "sgq") if (folder / "opt" / "sgq").is_dir() else []
    tally.add("what is installed to DESTDIR", None if found == expected_files() else f"it is {found}")
    said = (folder / "opt/sgq/lib/pkgconfig/sgq.pc").read_text()
    good = "libdir=/opt/sgq/lib\n" in said and str(folder) not in said and "@" not in said
    tally.add("the paths of sgq.pc", None if good else said)
    ended = house.sh(f"make uninstall {where}")
    tally.add("make uninstall", why_not(ended, files_below(folder) == []))


# The README's commands.


def readme_commands():
    """The indented lines of the README's part for C."""
    part = README.partition("### From C or C++")[2].partition("\n### ")[0]
    outside = re.sub(r"^```.*?^```", "", part, flags=re.MULTILINE | re.DOTALL)
    return [line.strip() for line in outside.splitlines() if line.startswith("    ")]


def test_readme(tally, folder):
    """All of them in order, in a house and a home of their own; first.c is the README's."""
    house = House(folder)
    source = re.search(r"`first\.c`:\n\n```c\n(.*?)```", README, re.DOTALL).group(1)
    prints = re.search(r"prints `(guest .*?)`", README).group(1) + "\n"
    (house.root / "first.c").write_text(source)
    (folder / "home").mkdir()
    commands = readme_commands()
    ended = house.sh("\n".join(commands), HOME=str(folder / "home"))
    tally.add("the README's commands", why_not(ended))
    runs = sum(bool(re.search(r"\./first$", command)) for command in commands)
    tally.add("./first", why_not(ended, runs == 3 == ended.stdout.count(prints)))
    day = (ROOT / "examples" / "host.out").read_text()
    tally.add("./host", why_not(ended, day in ended.stdout))
    test_linked(tally, house, folder / "home" / "sgq")


# How pkg-config links a program, and whether that then needs the shared object.
WAYS = {
    "$(pkg-config --cflags --libs sgq)": True,
    "$(pkg-config --cflags sgq) $(pkg-config --variable=archive sgq)": False,
}


def test_linked(tally, house, prefix):
    soname = "libsgq.so." + VERSION.rpartition(".")[0]
    for flags, needed in WAYS.items():
        line = f"cc first.c {flags} -o linked && readelf -d linked{LINKED}"
        ended = house.sh(line, PKG_CONFIG_PATH=str(prefix / "lib" / "pkgconfig"))
        tally.add(f"cc first.c {flags}", why_not(ended, (f"[{soname}]" in ended.stdout) == needed))


def test_wrapper(tally, folder, prefix):
    """The wrapper, away from this repository, finds the installed archive by pkg-config."""
    shutil.copytree(ROOT / "bindings" / "rust", folder / "wrapper", ignore=shutil.ignore_patterns("target"))
    environment = {name: value for name, value in os.environ.items() if name != "SGQ_LIB"}
    environment.update(machine.cargo_environment())
    words = ["cargo", "test", "--quiet", "--offline", "--manifest-path", folder / "wrapper" / "Cargo.toml"]
    for name, path, good in (("installed", prefix / "lib" / "pkgconfig", True), ("not installed", "/nowhere", False)):
        environment.update(PKG_CONFIG_PATH=str(path), PKG_CONFIG_LIBDIR="/nowhere")
        ended = subprocess.run(words, capture_output=True, text=True, env=environment)
        why = None if good == (ended.returncode == 0) else f"it ended with {ended}"
        tally.add(f"bindings/rust where the library is {name}", why)


# The man pages.


def plain(text):
    """The words of a page or of C, without the marks of either."""
    text = re.sub(r"^\.B (.*)$", r"\1", text, flags=re.MULTILINE)
    return " ".join(re.sub(r'\\f.|\\|"', "", text).split())


def test_pages(tally):
    pages = {path.name: path.read_text() for path in sorted(PAGES.iterdir())}
    words = plain("\n".join(pages.values()))
    declared = re.findall(r"^(?:SGQ_MUST_USE )?(?:static inline )?((?:const )?\w+ \*?(sgq_\w+)\([^;{]*\))[;\n]", HEADER, re.MULTILINE)
    for declaration, name in declared:
        if not name.endswith("_numbers"):  # the helpers' own
            tally.add(f"the page of {name}", None if plain(declaration) + ";" in words else "no page has it as it is declared")
    for call in re.findall(r"^SGQ_MUST_USE \w+ (\w+)\(", HEADER, re.MULTILINE):
        tally.add(f"{call}.3", None if f"{call}.3" in pages else "there is no such page")
    for name, number in re.findall(r"^    (SGQ_REFUSED_\w+) = (\d+)", HEADER, re.MULTILINE):
        tally.add(f"{name} in sgq.3", None if f"\n.B {number} {name}\n" in pages["sgq.3"] else "it is not there")
    for name, body in re.findall(r"^typedef struct (sgq_\w+) \{(.*?)^\}", HEADER, re.MULTILINE | re.DOTALL):
        fields = ", ".join(re.findall(r"^    uint(?:32|64)_t (\w+);", body, re.MULTILINE))
        good = f".B {name}\n{fields}" in pages["sgq.3"]
        tally.add(f"{name} in sgq.3", None if good else f"it is not there with {fields}")
    for name, text in pages.items():
        linked = re.fullmatch(r"\.so man3/(.*)\n", text)
        tally.add(name, None if not linked or linked.group(1) in pages else "it leads nowhere")


def test_layout(tally):
    """groff finds nothing wrong with the pages, where it is installed."""
    if not shutil.which("groff"):
        print("groff is not installed: the layout of the man pages was not tried")
        return
    for page in sorted(PAGES.iterdir()):
        if not page.read_text().startswith(".so "):
            ended = subprocess.run(["groff", "-man", "-ww", "-z", page], capture_output=True, text=True)
            tally.add(f"the layout of {page.name}", why_not(ended, not ended.stderr))


def test_script(tally):
    """The page of sgq has each word of the script's help, and the script the header's version, if it says one."""
    ended = subprocess.run([ROOT / "sgq", "help"], capture_output=True, text=True)
    page = plain((PAGES / "sgq.1").read_text())
    for word in sorted(set(re.findall(r"\./sgq ([\w-]+)", ended.stdout)) - {"WORD"}):
        tally.add(f"sgq {word} in sgq.1", None if f"./sgq {word}" in page else "it is not there")
    ended = subprocess.run([ROOT / "sgq", "--version"], capture_output=True, text=True)
    said = re.match(r"sgq (\d+\.\d+\.\d+)\n", ended.stdout)
    tally.add("the script's version", None if said is None or said.group(1) == VERSION else f"it is not {VERSION}")


def tests(tally):
    for tool in ("make", "cc", "pkg-config", "nm", "readelf", "cargo"):
        if not shutil.which(tool):
            raise Stop(f"{tool} is missing: install it and put it on PATH")
    need_library()
    machine.say_how(linked=True)
    with tempfile.TemporaryDirectory() as name:
        folder = pathlib.Path(name)
        for part in ("first", "staged", "readme"):
            (folder / part).mkdir()
        house = House(folder / "first")
        test_install(tally, house, folder / "first" / "prefix")
        test_symbols(tally, house, folder / "first" / "prefix")
        test_wrapper(tally, folder / "first", folder / "first" / "prefix")
        test_staged(tally, house, folder / "staged")
        test_readme(tally, folder / "readme")
    test_pages(tally)
    test_layout(tally)
    test_script(tally)


sys.exit(run_tests(tests))
