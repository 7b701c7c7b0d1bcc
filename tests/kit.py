"""What the tests share: the second program and its random traces, the seeds of those, the library, the text tool, and the count of what
passed."""
import os
import pathlib
import random
import shutil
import subprocess
import sys

from machine import ROOT, Stop, need_linking

FAILED = ROOT / "target" / "failed"
BUILT = ROOT / "second" / "target"
SECOND = BUILT / "release" / "second"
TRACES = BUILT / "release" / "traces"
CORES = 2
# The library that a host links; SGQ_LIB may name another archive, as to try a test on a wrong one.
LIBRARY = pathlib.Path(os.environ.get("SGQ_LIB") or ROOT / "target" / "staticlib" / "libhost.a").absolute()
PART = 10  # of so many fixed seeds there is one fresh one; tests/host/src/seeds.rs has the same
MOST_SEED = 2**63  # so that those that follow it fit into 64 bits
X86_64 = (62).to_bytes(2, "little")  # the machine in an object's header

sys.path.insert(0, str(ROOT / "samples"))
import sgqtext  # noqa: E402  (it stands in samples/)


def need_library():
    """The library is there, and this machine can link it."""
    if not LIBRARY.is_file():
        raise Stop(f"there is no {LIBRARY}: 'tools/build host' in the root writes target/staticlib/libhost.a")
    if LIBRARY.read_bytes().partition(b"\x7fELF")[2][14:16] != X86_64:
        raise Stop(f"{LIBRARY} is not for x86-64")
    need_linking()


def build_second():
    if not shutil.which("cargo"):
        raise Stop("cargo is missing: install Rust's toolchain, which builds the second program")
    print("building the second program", flush=True)
    manifest = ROOT / "second" / "Cargo.toml"
    words = ["cargo", "build", "--quiet", "--release", "--offline", "--jobs", str(CORES)]
    words += ["--manifest-path", manifest, "--target-dir", BUILT]
    if subprocess.run(words).returncode != 0:
        raise Stop("the second program was not built")


def random_trace(kind, seed):
    """The generator's trace of a kind for a seed; always the same one."""
    return subprocess.run([TRACES, str(seed), kind], stdout=subprocess.PIPE, check=True).stdout


def drawn_seed():
    """A seed above all fixed ones, from the system's randomness."""
    return random.SystemRandom().randrange(10**6, 10**12)


def fresh_seed():
    """The one that SGQ_SEED names, to repeat a run, or else one that is drawn."""
    named = os.environ.get("SGQ_SEED")
    if not named:
        return drawn_seed()
    if not named.isdecimal() or int(named) >= MOST_SEED:
        raise Stop(f"SGQ_SEED is '{named}', and has to be a whole number below {MOST_SEED}")
    return int(named)


class Seeds:
    """The seeds of a test's random comparisons: fixed ones, so that every run sees what the last one saw, and beside them a tenth as many
    fresh ones, so that no run sees only that. The first fresh one is printed, and told again where something fails.

    A test's words are one number, the first of the fixed ones, or --fresh, by which it plays the fresh ones alone and leaves out all that
    has no seed."""

    def __init__(self, tally, words):
        if len(words) > 1 or not (words in ([], ["--fresh"]) or words[0].isdecimal()):
            raise Stop("the words are one number, the first of the fixed seeds, or --fresh, the fresh ones alone")
        self.alone = words == ["--fresh"]
        self.first = int(words[0]) if words and not self.alone else 1
        self.fresh = fresh_seed()
        tally.repeat = f"seed {self.fresh} (SGQ_SEED={self.fresh} repeats it)"
        print(tally.repeat, flush=True)

    def of(self, count):
        """The fresh ones beside so many fixed ones, and those."""
        fixed = 0 if self.alone else count
        return [*range(self.fresh, self.fresh + -(-count // PART)), *range(self.first, self.first + fixed)]


class Tally:
    """Counts what passed; says what failed, and keeps its trace."""

    def __init__(self):
        self.passed = self.failed = 0
        self.repeat = None  # how a run is repeated that has a fresh seed

    def add(self, name, why, trace=None):
        """One test more: it passed where there is no reason why not."""
        if why is None:
            self.passed += 1
            return
        self.failed += 1
        print(f"FAILED {name}: {why}", flush=True)
        if trace is not None:
            print(f"  its trace is in {kept(name, trace)}", flush=True)

    def end(self):
        """The last line, and the exit status. Where something failed the seed stands above it, for what failed without naming one."""
        if self.failed and self.repeat:
            print(self.repeat)
        print(f"{self.passed} passed, {self.failed} failed")
        return 0 if self.passed and not self.failed else 1


def kept(name, trace):
    """Keeps a trace for a look at it; gives the path from the repository's root."""
    FAILED.mkdir(parents=True, exist_ok=True)
    path = FAILED / (name.replace(" ", "-").replace("/", "-") + ".sgq")
    path.write_bytes(trace)
    return path.relative_to(ROOT)


def run_tests(tests):
    """Runs tests over a fresh tally, and ends with their count whatever happens."""
    tally = Tally()
    try:
        tests(tally)
    except (Stop, sgqtext.Bad, OSError, subprocess.SubprocessError) as why:
        tally.add("to go on", why)
    return tally.end()
