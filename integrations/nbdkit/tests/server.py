"""What the tests of the filter share: what it needs, a folder with what is built, an nbdkit and its clients, and the programs that
its records are held to."""
import contextlib
import importlib.util
import json
import os
import pathlib
import platform
import shutil
import subprocess
import sys
import time

HERE = pathlib.Path(__file__).resolve().parent
FILTER = HERE.parent
sys.path.insert(0, str(FILTER.parent.parent / "tests"))
from kit import LIBRARY, ROOT, Stop  # noqa: E402  (it stands in tests/ of the root)
from machine import OWN, before_program  # noqa: E402

BIN = ROOT / "target" / "bin"
DEBIAN = "/usr/bin/python3"  # which has python3-libnbd, where another Python comes first on PATH
WARNINGS = ["-Wall", "-Wextra", "-Wpedantic", "-Werror", "-Wshadow", "-Wconversion", "-Wcast-qual"]
SOURCES = [FILTER / f"{name}.c" for name in ("filter", "gate", "house", "record", "settings")]
DISC = 32 << 20  # bytes
MOST_SECONDS = 30

# ---- What is needed


def has_headers():
    words = ["cc", "-E", "-"]
    return bool(shutil.which("cc")) and subprocess.run(words, input=b"#include <nbdkit-filter.h>\n", capture_output=True).returncode == 0


def is_for_arm():
    """The library is one for a 64-bit Arm machine, as bench/native makes it for timing."""
    return LIBRARY.is_file() and LIBRARY.read_bytes().partition(b"\x7fELF")[2][14:16] == b"\xb7\x00"


def missing():
    """What is not here."""
    here = {
        "x86-64, for which the library is": OWN or (platform.machine() == "aarch64" and is_for_arm()),
        "nbdkit": shutil.which("nbdkit"),
        "nbdkit-plugin-dev": has_headers(),
        "make": shutil.which("make"),
        "python3-libnbd": importlib.util.find_spec("nbd"),
    }
    return [name for name, found in here.items() if not found]


def take_debians_python():
    """Goes on under Debian's own Python where this one has no libnbd and that has."""
    if importlib.util.find_spec("nbd") or sys.executable == DEBIAN or not os.access(DEBIAN, os.X_OK):
        return
    if subprocess.run([DEBIAN, "-c", "import nbd"], capture_output=True).returncode == 0:
        os.execv(DEBIAN, [DEBIAN, *sys.argv])


# ---- What is built


def run(*words, **more):
    return subprocess.run([str(word) for word in words], capture_output=True, text=True, **more)


def build(*words):
    made = run(*words)
    if made.returncode != 0:
        raise Stop(f"'{' '.join(map(str, words))[:200]}' failed\n{made.stderr[-2000:]}")


class House:
    """A folder with the filters, a disc, and what the tests leave there."""

    def __init__(self, folder):
        self.folder, self.count = folder, 0
        build("make", "-B", "-C", FILTER, "CFLAGS=-O2 -g -Werror", f"SGQ_LIB={LIBRARY}")
        self.gate, self.array = (FILTER / "target" / f"nbdkit-{name}-filter.so" for name in ("sgq", "array"))
        self.spoiled, self.files = folder / "spoiled.so", folder / "files"
        words = ["cc", "-std=gnu11", "-O2", *WARNINGS, "-fPIC", "-shared", "-pthread", f"-I{ROOT / 'include'}", *SOURCES, HERE / "spoil.c"]
        build(*words, LIBRARY, "-Wl,--wrap=sgq_batch", "-o", self.spoiled)
        build("cc", "-std=c99", "-O2", f"-I{ROOT / 'include'}", *sorted((ROOT / "files").glob("*.c")), LIBRARY, "-o", self.files)
        self.disc, self.original = folder / "disc", folder / "original"
        self.original.write_bytes(os.urandom(DISC))

    def path(self, kind):
        self.count += 1
        return self.folder / f"{self.count}.{kind}"


# ---- A server and its clients


class Server:
    """An nbdkit over a fresh copy of the disc: with the gate, or another, or False for none; with filters below it; recording, or not."""

    def __init__(self, house, *words, gate=None, below=(), plugin=None, record=True, **more):
        self.house, self.socket, self.trace = house, house.path("socket"), house.path("sgq")
        shutil.copyfile(house.original, house.disc)
        filters = [] if gate is False else [gate or house.gate]
        filters += [house.array] if any(word.startswith("array-") for word in words) else []
        command = ["nbdkit", "-f", "-t", "64", "-U", self.socket, *(f"--filter={path}" for path in [*filters, *below])]
        command += [*(plugin or ["file", house.disc]), *words]
        command += [f"sgq-trace={self.trace}"] if record and gate is not False else []
        self.log = open(house.path("log"), "w+b")
        self.process = subprocess.Popen([str(word) for word in command], stderr=self.log, **more)
        until = time.monotonic() + MOST_SECONDS
        while not self.socket.exists():
            if self.process.poll() is not None or time.monotonic() > until:
                raise Stop(f"nbdkit did not start: {self.heard()}")
            time.sleep(0.01)

    def client(self, export, **told):
        words = [sys.executable, HERE / "load.py", self.socket, export, self.house.disc, self.house.original]
        words += [f"{key}={value}" for key, value in told.items()]
        return subprocess.Popen([str(word) for word in words], stdout=subprocess.PIPE, stderr=subprocess.PIPE)

    def stop(self):
        """Ends it; gives its status, or None where it does not end."""
        self.process.terminate()
        try:
            return self.process.wait(MOST_SECONDS)
        except subprocess.TimeoutExpired:
            self.process.kill()
            self.process.wait()
            return None

    def heard(self):
        self.log.seek(0)
        return self.log.read().decode(errors="replace")


@contextlib.contextmanager
def serving(house, *words, **more):
    server = Server(house, *words, **more)
    try:
        yield server
    finally:
        if server.process.poll() is None:
            server.stop()


def told_by(client):
    """What a client printed, when it has ended."""
    try:
        printed, complaint = client.communicate(timeout=MOST_SECONDS)
    except subprocess.TimeoutExpired:
        client.kill()
        client.communicate()
        raise Stop("a client did not end")
    if client.returncode != 0:
        raise Stop(f"a client failed: {complaint.decode()[-1000:]}")
    return json.loads(printed)


def play(server, day, seconds):
    """The clients of a day, at once: what each printed, by guest."""
    clients = {guest: server.client(guest, seconds=seconds, **told) for guest, told in day.items()}
    return {guest: told_by(client) for guest, client in clients.items()}


# ---- Holding to what is proved


def printed(program, trace):
    with open(trace, "rb") as file:
        return subprocess.run([*before_program(), BIN / program], stdin=file, capture_output=True).stdout


def hold_record(tally, name, house, trace):
    """Decide prints the lines that were written, and the judge accepts them; gives the sheet."""
    lines = pathlib.Path(f"{trace}.lines").read_bytes()
    good = lines and printed("decide", trace) == lines
    tally.add(f"{name}: decide prints the lines", None if good else "it prints others", trace.read_bytes())
    judged = run(house.files, "judge", trace, f"{trace}.lines")
    tally.add(f"{name}: the judge", None if judged.returncode == 0 else judged.stdout + judged.stderr)
    return [[int(word) for word in line.split()] for line in printed("sheet", trace).splitlines()]


def hold_clients(tally, name, told, errors=()):
    """No byte was wrong, and no error came but these."""
    for guest, heard in told.items():
        strange = {error: count for error, count in heard["errors"].items() if int(error) not in errors}
        tally.add(f"{name}: the data of {guest}", f"{heard['wrong']} requests with wrong bytes" if heard["wrong"] else None)
        tally.add(f"{name}: the requests of {guest}", f"errors {strange}, {heard['made']} made" if strange or not heard["made"] else None)


def hold_sheet(tally, name, sheet, told):
    """The sheet counts what the clients made, nothing is left, and no wait is longer than the client's."""
    for row, (guest, heard) in zip(sheet, told.items()):
        _, arrivals, completed, by_reservation, by_weight, _, longest, _, _, waiting, flying = row
        made = heard["made"]
        good = [arrivals, completed, by_reservation + by_weight, waiting, flying] == [made, made, made, 0, 0]
        tally.add(f"{name}: the sheet of {guest}", None if good else f"{made} were made, and it has {row}")
        if len(heard["latencies"]) == made:
            good = longest <= max(heard["latencies"]) * 1e9
            tally.add(f"{name}: the waits of {guest}", None if good else f"{longest} ns is longer than any request took")
