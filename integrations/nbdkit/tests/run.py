#!/usr/bin/env python3
"""Tests the filter in a real nbdkit, with real clients: libnbd's, by load.py.

    python3 integrations/nbdkit/tests/run.py

Every load is recorded, and afterwards the proved decide prints the lines that the filter wrote, byte for byte, the judge
accepts them, and the sheet counts what the clients count. Every byte that a client reads is held to what it has to be. Needs
target/bin/decide and sheet, target/staticlib/libhost.a (SGQ_LIB names another archive) and Debian's nbdkit,
nbdkit-plugin-dev and python3-libnbd; where the packages are not there it says that it is skipped. The library is for x86-64: on a
64-bit Arm machine it is tried with SGQ_LIB=target/bench/native/libhost.a, which bench/native makes. Ends with 'N passed, M failed'.
"""
import contextlib
import os
import pathlib
import re
import resource
import shutil
import signal
import subprocess
import sys
import tempfile
import time

from server import BIN, DISC, FILTER, HERE, MOST_SECONDS, ROOT, SOURCES, WARNINGS, House, Stop, hold_clients, hold_record, hold_sheet
from server import missing, play, run, serving, take_debians_python, told_by
from kit import need_library, run_tests  # where it stands, server.py knows
from machine import OWN

EIO, ENOTCONN, ESHUTDOWN = 5, 107, 108
# The sale day in small: the array takes 3 ms and 160 us a KiB, so 3.6, 8.1 and 23.5 ms.
ARRAY = ["array-places=4", "array-base-us=3000", "array-us-per-kib=160"]
ROOM = {"size": 4096, "depth": 1, "writes": 70, "first": 0, "blocks": 256}
PICTURES = {"size": 32768, "depth": 32, "writes": 20, "first": 64, "blocks": 128}
ARCHIVE = {"size": 131072, "depth": 16, "first": 128, "blocks": 100}
DAY = {"room": ROOM, "pictures": PICTURES, "archive": ARCHIVE}
GUESTS = ["sgq-guest=room:reservation=200,quota=16", "sgq-guest=pictures:shares=100,quota=40", "sgq-guest=archive:shares=100,quota=20"]


def p99(latencies):
    return sorted(latencies)[int(len(latencies) * 0.99)]


# ---- The tests


def test_build(tally, house):
    """No compiler that is here warns; nothing but what nbdkit asks for is to be seen from outside."""
    for compiler in filter(shutil.which, ("gcc", "clang")):
        sources = [*SOURCES, FILTER / "array.c", HERE / "spoil.c"]
        made = run(compiler, "-std=gnu11", "-fsyntax-only", *WARNINGS, f"-I{ROOT / 'include'}", *sources)
        tally.add(f"{compiler} takes it", made.stderr[-2000:] if made.returncode else None)
    seen = run("nm", "-D", "--defined-only", house.gate).stdout.split()[2::3]
    tally.add("what is seen of it", None if seen == ["filter_init"] else f"{seen}")


GOOD = ["sgq-depth=4", "sgq-guest=room"]
BAD = [
    (["sgq-depth=4"], "sgq-guest=NAME:reservation=R,limit=L,shares=S,credit=C,quota=Q is expected for each guest"),
    (["sgq-guest=room"], "sgq-depth=1 to 64: how many requests the array works on at once is expected"),
    (["sgq-guest=room", "sgq-depth=65"], "sgq-depth=1 to 64: how many requests the array works on at once is expected"),
    (["sgq-guest=room", "sgq-depth=four"], "sgq-depth: empty string where we expected a number"),
    ([*GOOD, "sgq-capacity=1025"], "sgq-capacity=1 to 1024: how many requests may wait is expected"),
    ([*GOOD, "sgq-capacity=0"], "sgq-capacity=1 to 1024: how many requests may wait is expected"),
    ([*GOOD, "sgq-rule=3"], "sgq-rule=1 or 2 is expected"),
    ([*GOOD, "sgq-guest=room:shares=2"], "sgq-guest=room:shares=2: there is a guest of this name already"),
    ([*GOOD, "sgq-guest=:shares=2"], "sgq-guest=:shares=2: a guest has a name, which is that of its export"),
    ([*GOOD, "sgq-guest=desk:share=2"], "sgq-guest=desk: 'share' is none of reservation, limit, shares, credit and quota"),
    ([*GOOD, "sgq-guest=desk:shares"], "shares: empty string where we expected a number"),
    ([*GOOD, "sgq-guest=desk:shares=0"], "sgq-guest=desk: reservation and limit are 0 to 1000000, no reservation is above its limit"),
    ([*GOOD, "sgq-guest=desk:reservation=2,limit=1"], "sgq-guest=desk: reservation and limit are 0 to 1000000"),
    ([*GOOD, "sgq-guest=desk:credit=257"], "sgq-guest=desk: reservation and limit are 0 to 1000000"),
    ([*GOOD, "sgq-guest=desk:quota=0"], "sgq-guest=desk: a quota is 1 to 1024"),
    ([*GOOD, *(f"sgq-guest=g{number}" for number in range(64))], "sgq-guest=g63: there are 64 guests already"),
    ([*GOOD, "sgq-cost=64k:65"], "sgq-cost=64k:65: SIZE:COST,SIZE:COST,.. is expected, sizes rising, costs 1 to 64"),
    ([*GOOD, "sgq-cost=64k:1,64k:2"], "sgq-cost=64k:1,64k:2: SIZE:COST,SIZE:COST,.. is expected"),
    ([*GOOD, "sgq-cost=reed:64k:1"], "sgq-cost=reed:64k:1: SIZE:COST,SIZE:COST,.. is expected"),
    ([*GOOD, "sgq-trace=/nowhere/day.sgq"], "sgq-trace: /nowhere/day.sgq: No such file or directory"),
    ([*GOOD, "sgq-house=house.map"], "sgq-house=FILE sgq-arrays=N sgq-array=0 to N-1 are expected together"),
    ([*GOOD, "sgq-quota=4"], "sgq has no parameter 'sgq-quota'"),
    ([*GOOD, "--filter=noparallel"], "sgq: this plugin, or a filter, takes one request at a time"),
]


def test_parameters(tally, house):
    """A bad parameter ends nbdkit before it serves, and the last line says which."""
    for words, line in BAD:
        options = [word for word in words if word.startswith("--")]
        words = [word for word in words if word not in options]
        command = ["nbdkit", "-f", "-U", house.path("socket"), f"--filter={house.gate}", *options, "memory", "1M", *words]
        ended = run(*command, timeout=MOST_SECONDS)
        heard = ended.stderr.splitlines()[-1:] or [""]
        good = ended.returncode != 0 and f"error: {line}" in ended.stderr
        tally.add(f"parameters {' '.join(words)[-60:]}", None if good else f"status {ended.returncode}, it says {heard}")


def test_exports(tally, house):
    """Each guest is an export; who names another, or none, is refused."""
    import nbd

    with serving(house, *GUESTS, "sgq-depth=4") as server:
        disc, listed = nbd.NBD(), []
        disc.set_opt_mode(True)
        disc.connect_unix(str(server.socket))
        disc.opt_list(lambda name, _: listed.append(name) and 0 or 0)
        tally.add("the exports", None if listed == list(DAY) else f"{listed}")
        for name in ("nobody", ""):
            refused = False
            disc = nbd.NBD()
            disc.set_export_name(name)
            try:
                disc.connect_unix(str(server.socket))
            except nbd.Error:
                refused = True
            tally.add(f"the export '{name}' is refused", None if refused else "it is not")
    heard = server.heard()
    line = "error: sgq: no guest has the name of this export, 'nobody'"
    tally.add("one line says so", None if line in heard and heard.count("\n") == 2 else heard)


def test_day(tally, house):
    """Seconds of the whole day at once, under each rule, with limits, credits and costs."""
    for name, words in (
        ("rule 1", GUESTS),
        ("rule 2", ["sgq-rule=2", "sgq-cost=4k:1,32k:3,128k:8", "sgq-guest=room:reservation=40,limit=60,credit=30,quota=16",
                    "sgq-guest=pictures:shares=200,quota=12", "sgq-guest=archive:limit=200,shares=100,credit=5,quota=8"]),
    ):
        with serving(house, "sgq-depth=4", *words, *ARRAY) as server:
            told = play(server, DAY, 1.5)
            status = server.stop()
        tally.add(f"{name}: it ends", None if status == 0 and not server.heard() else f"status {status}: {server.heard()}")
        hold_clients(tally, name, told)
        hold_sheet(tally, name, hold_record(tally, name, house, server.trace), told)


def test_haste(tally, house):
    """Nothing but the gate takes time, and many threads come at once: so events come together."""
    words = ["sgq-guest=room:reservation=5000,quota=8", "sgq-guest=pictures:limit=3000,quota=30", "sgq-guest=archive:shares=7,quota=30"]
    day = {guest: {**told, "size": 4096, "depth": 16, "blocks": 1000, "first": 1000 * at} for at, (guest, told) in enumerate(DAY.items())}
    with serving(house, "sgq-depth=6", *words) as server:
        told = play(server, day, 1.5)
        status = server.stop()
    tally.add("in haste: it ends", None if status == 0 and not server.heard() else f"status {status}: {server.heard()}")
    hold_clients(tally, "in haste", told)
    hold_sheet(tally, "in haste", hold_record(tally, "in haste", house, server.trace), told)


def test_kinds(tally, house):
    """Every kind of request passes the gate, each at its cost."""
    import nbd

    costs = ["sgq-cost=64k:1,1M:8", "sgq-cost=write:4k:2,64k:5", "sgq-cost=flush:7", "sgq-cost=trim:9", "sgq-cost=zero:1M:10", "sgq-cost=cache:11"]
    with serving(house, "sgq-depth=4", "sgq-guest=room", *costs, plugin=["memory", "8M"]) as server:
        disc = nbd.NBD()
        disc.set_export_name("room")
        disc.connect_unix(str(server.socket))
        for size in (512, 65536, 65537, 1 << 20, (1 << 20) + 1):
            disc.pread(size, 0)
        for size in (4096, 4097, 65537):
            disc.pwrite(bytes(size), 0)
        disc.flush()
        disc.trim(4096, 0)
        disc.zero(4096, 0)
        disc.zero(2 << 20, 0)
        disc.cache(4096, 0)
        disc.shutdown()
        server.stop()
    hold_record(tally, "kinds", house, server.trace)
    events = server.trace.read_bytes()[24:]
    found = [(events[at] >> 2) + 1 for at in range(0, len(events), 14) if events[at] & 3 == 0]
    expected = [1, 1, 8, 8, 64, 2, 5, 64, 7, 9, 10, 64, 11]
    tally.add("the costs", None if found == expected else f"{found} where {expected} are")


def test_latency(tally, house):
    """The bids' 99th of 100 is under a quarter of what it is with no gate. A busy machine may spoil one try."""
    why = "no try"
    for _ in range(3):
        with serving(house, *ARRAY, gate=False) as server:
            without = play(server, DAY, 2)
        with serving(house, "sgq-depth=4", *GUESTS, *ARRAY) as server:
            with_gate = play(server, DAY, 2)
        one, other = p99(without["room"]["latencies"]), p99(with_gate["room"]["latencies"])
        print(f"bids at the 99th of 100: {one * 1000:.1f} ms with no gate, {other * 1000:.1f} ms with it", flush=True)
        why = None if other < one / 4 else f"{other} s with the gate, {one} s without"
        if why is None:
            break
    tally.add("the bids stay fast", why)
    hold_clients(tally, "no gate", without)
    hold_clients(tally, "the gate", with_gate)


def test_full(tally, house):
    """Fewer waiting places than the quotas ask for: requests wait outside, and all guests get on."""
    words = ["sgq-capacity=5", "sgq-guest=room:reservation=200,quota=5", "sgq-guest=pictures:quota=5", "sgq-guest=archive:quota=5"]
    with serving(house, "sgq-depth=2", *words, *ARRAY) as server:
        told = play(server, DAY, 2)
        server.stop()
    hold_clients(tally, "a full capacity", told)
    hold_sheet(tally, "a full capacity", hold_record(tally, "a full capacity", house, server.trace), told)


def died_of_its_own(server):
    """Nbdkit 1.32.5 ends by an assertion where a client is killed while answers are on their way to it, with any filter and with none."""
    return server.process.poll() == -signal.SIGABRT and "raw_send_socket" in server.heard()


def play_killed(house, archive, log):
    """A client of the archive is killed; gives the server, how long the next one of its guest waited, and what the room's client told. None where nbdkit died."""
    words = ["sgq-depth=4", "sgq-guest=room:reservation=200", f"sgq-guest=archive:{archive}", f"logfile={log}", *ARRAY]
    with serving(house, *words, below=["log"]) as server:
        killed = server.client("archive", **{**ARCHIVE, "depth": 30}, seconds=20)
        time.sleep(1)
        killed.kill()
        killed.communicate()
        bids = server.client("room", **ROOM, seconds=2)
        time.sleep(0.5)
        began = time.monotonic()
        try:
            told_by(server.client("archive", **ARCHIVE | {"depth": 1}, seconds=0.01))
            waited = time.monotonic() - began
            told = {"room": told_by(bids)}
        except Stop as why:
            bids.kill()
            bids.communicate()
            if died_of_its_own(server):
                return None
            raise Stop(f"{why}\nnbdkit has status {server.process.poll()} and said: {server.heard()[-1000:]}") from why
        status = server.stop()
        return None if died_of_its_own(server) else (server, waited, told, status)


def test_killed(tally, house):
    """A client that is killed leaves at most its quota behind, and the array sees none of that."""
    for _ in range(5):
        log = house.path("requests")
        played = play_killed(house, "limit=4,quota=4", log)
        if played:
            break
        print("nbdkit ended by an assertion of its own where a client was killed: once more", flush=True)
    if not played:
        raise Stop("nbdkit ended by an assertion of its own five times")
    server, waited, told, status = played
    tally.add("a killed client: the next one of its guest", None if waited < 4 else f"it waited {waited:.1f} s")
    tally.add("a killed client: the server ends", None if status == 0 else f"status {status}")
    hold_clients(tally, "a killed client", told)
    sheet = hold_record(tally, "a killed client", house, server.trace)
    seen = len(re.findall(rf" Read id=\d+ offset=\S+ count={ARCHIVE['size']:#x} ", log.read_text()))
    sent = sheet[1][4]
    tally.add("a killed client: the array", None if 0 < seen < sent else f"{sent} were sent, and the array saw {seen}")
    tally.add("a killed client: nothing is left", None if sheet[1][9:] == [0, 0] else f"{sheet[1]}")


def test_term(tally, house):
    """SIGTERM under load, with requests waiting for seconds: it ends soon, and what was answered is on the disc."""
    words = ["sgq-depth=4", "sgq-guest=room:reservation=200,quota=16", "sgq-guest=pictures:shares=100,quota=40", "sgq-guest=archive:limit=2,quota=12"]
    with serving(house, *words, *ARRAY) as server:
        clients = {guest: server.client(guest, seconds=20, **told) for guest, told in DAY.items()}
        time.sleep(1.5)
        began = time.monotonic()
        status = server.stop()
        took = time.monotonic() - began
        told = {guest: told_by(client) for guest, client in clients.items()}
    tally.add("SIGTERM: it ends", None if status == 0 and took < 5 else f"status {status}, after {took:.1f} s")
    tally.add("SIGTERM: the clients know", None if all(heard["gone"] for heard in told.values()) else f"{told}")
    hold_clients(tally, "SIGTERM", told, errors=[ENOTCONN, ESHUTDOWN])
    sheet = hold_record(tally, "SIGTERM", house, server.trace)
    tally.add("SIGTERM: some were waiting", None if sheet[2][9] > 0 else f"{sheet}")


def arrivals_and_left(trace, guests):
    """The requests of a record in order of arrival, as guest and id, and those of them that still wait at its end."""
    events = trace.read_bytes()[10 + 14 * guests :]
    answers = pathlib.Path(f"{trace}.lines").read_text().splitlines()[1:]
    arrivals, left = [], []
    for at, answer in enumerate(answers):
        event = events[14 * at : 14 * at + 14]
        if event[0] & 3 == 0:
            arrivals.append((event[1], int.from_bytes(event[2:6], "little")))
            left.append(arrivals[-1])
        words = answer.split()
        if words[1] in "RW":
            left.remove((int(words[2]), int(words[3])))
    return arrivals, left


def play_spoiled(tally, house, name, spoils):
    """The day while tables are changed: the gate is opened anew as often. What the clients made and what was sent, by guest."""
    words = ["sgq-depth=4", "sgq-guest=room:reservation=100,limit=900,quota=16", *GUESTS[1:]]
    with serving(house, *words, *ARRAY, gate=house.spoiled, env={**os.environ, "SGQ_SPOIL": spoils}) as server:
        told = play(server, DAY, 2.5)
        status = server.stop()
    openings = spoils.count(":") + 1
    good = status == 0 and server.heard().count("the gate is opened anew") == openings - 1
    tally.add(f"{name}: the gate is opened anew", None if good else f"status {status}: {server.heard()}")
    hold_clients(tally, name, told)
    sent, left = [0] * len(told), []
    for number in range(1, openings + 1):
        trace = server.trace if number == 1 else server.trace.with_name(f"{server.trace.name}.{number}")
        for at, row in enumerate(hold_record(tally, f"{name}, opening {number}", house, trace)):
            sent[at] += row[3] + row[4]
        arrivals, waiting = arrivals_and_left(trace, len(told))
        come = arrivals[: len(left)]
        good = [request for request in come if request in left] == [request for request in left if request in come]
        tally.add(f"{name}, opening {number}: who waited comes first", None if good else f"{left} waited, {come} come")
        left = waiting
    return [heard["made"] for heard in told.values()], sent, server.heard()


def test_spoiled(tally, house):
    """Tables that are not sound, and a tag past the ceiling: no request is lost, and none is sent twice."""
    made, sent, heard = play_spoiled(tally, house, "spoiled", "100:tag 300:rule 500:limit 700:tag")
    tally.add("spoiled: the refusals", None if heard.count("(3)") == 3 and heard.count("(9)") == 1 else heard)
    tally.add("spoiled: each request was sent once", None if sent == made else f"{made} were made, {sent} sent")


def test_lost(tally, house):
    """Tables that are sound, and not what the filter handed over: its books tell, and no request is lost."""
    _, _, heard = play_spoiled(tally, house, "lost", "100:lost 300:name")
    tally.add("lost: the books tell", None if heard.count("not what the books say") == 2 else heard)


def test_hopeless(tally, house):
    """A gate that is spoiled again as soon as it is opened: the server ends by itself, and the clients know."""
    spoil = {**os.environ, "SGQ_SPOIL": "100:rule 101:rule"}
    with serving(house, "sgq-depth=4", *GUESTS, *ARRAY, gate=house.spoiled, env=spoil) as server:
        told = play(server, DAY, 10)
        server.process.wait(MOST_SECONDS)
    tally.add("hopeless: it ends", None if "the gate cannot be opened anew" in server.heard() else server.heard())
    tally.add("hopeless: the clients know", None if all(heard["gone"] for heard in told.values()) else f"{told}")
    hold_clients(tally, "hopeless", told, errors=[ENOTCONN, ESHUTDOWN])


def test_failing_disc(tally, house):
    """What the layer below answers goes to the client, and its place at the array is given back."""
    with serving(house, "sgq-depth=2", *GUESTS, "error-rate=20%", below=["error"]) as server:
        told = play(server, {"room": {**ROOM, "depth": 8}}, 1)
        server.stop()
    hold_clients(tally, "a failing disc", told, errors=[EIO])
    tally.add("a failing disc: errors are told", None if told["room"]["errors"] else "none came")
    hold_sheet(tally, "a failing disc", hold_record(tally, "a failing disc", house, server.trace), told)


def full_disc():
    """For the server: files end at 10,000 bytes, as where a disc is full: some 350 requests are recorded."""
    signal.signal(signal.SIGXFSZ, signal.SIG_IGN)
    resource.setrlimit(resource.RLIMIT_FSIZE, (10_000, 10_000))


def test_no_room(tally, house):
    """Where the record cannot be written it ends, in one line, and the gate goes on."""
    with serving(house, "sgq-depth=8", *GUESTS, plugin=["memory", str(DISC)], preexec_fn=full_disc) as server:
        told = play(server, {"room": {**ROOM, "first": 1000, "depth": 8, "writes": 100}}, 1.5)
        status = server.stop()
    heard = server.heard()
    tally.add("no room to record: it says so", None if heard.count("it ends here, and the gate goes on") == 1 else heard)
    tally.add("no room to record: it serves", None if status == 0 and told["room"]["made"] > 700 else f"{status}, {told['room']['made']}")
    hold_clients(tally, "no room to record", told)


def play_arrays(tally, house, words, kill):
    """A guest that asks two arrays for all it can get: how many requests it has in 1.5 s. Then one of the servers is killed."""
    with contextlib.ExitStack() as both:
        own = [[*words, f"sgq-array={array}"] if words else [] for array in range(2)]
        usual = ["sgq-depth=4", "sgq-guest=archive:limit=50,quota=16", *ARRAY]
        servers = [both.enter_context(serving(house, *usual, *its, record=not words)) for its in own]
        clients = [server.client("archive", seconds=1.5, depth=8, first=2000 * at, blocks=1000) for at, server in enumerate(servers)]
        told = {f"array {at}": told_by(client) for at, client in enumerate(clients)}
        hold_clients(tally, "two arrays", told)
        if kill:
            servers[0].process.kill()
            hold_clients(tally, "an array is left", {"archive": told_by(servers[1].client("archive", seconds=0.3, depth=8))})
            with contextlib.suppress(Stop):
                both.enter_context(serving(house, *usual, "sgq-guest=room", *own[0], record=False))
                tally.add("an array with other guests", "it is not refused")
    return sum(len(heard["latencies"]) for heard in told.values())


def test_house(tally, house):
    """Two arrays, a server for each: a limit is the guest's at both together where the house counts, and at each where not."""
    alone = play_arrays(tally, house, [], False)
    together = play_arrays(tally, house, [f"sgq-house={house.path('house')}", "sgq-arrays=2"], True)
    print(f"two arrays, a limit of 50 a second, 1.5 s: {alone} each for itself, {together} where the house counts", flush=True)
    tally.add("two arrays: the limit is of both", None if together < alone * 3 / 4 else f"{alone} and {together}")


def test_readme(tally, house):
    """The commands of the page, with fio for a second where it has 10: they run, no job fails, and the record holds."""
    if not shutil.which("fio"):
        print("skipped: the page's commands are not tried, for there is no fio here", flush=True)
        return
    folder = house.folder / "readme"
    (folder / "target").mkdir(parents=True)
    for path in (house.gate, house.array):
        (folder / "target" / path.name).symlink_to(path)
    (folder / "sale.fio").write_text((FILTER / "sale.fio").read_text().replace("runtime=10", "runtime=1"))
    for block in re.findall(r"^```sh\n(.*?)^```$", (FILTER / "README.md").read_text(), re.MULTILINE | re.DOTALL):
        ended = run("sh", "-e", "-c", block, cwd=folder, timeout=MOST_SECONDS)
        good = ended.returncode == 0 and ended.stdout.count("): err= 0:") == 3
        tally.add(f"the page: {block[:60]!r}", None if good else f"status {ended.returncode}: {ended.stdout}{ended.stderr}")
        pid = int((folder / "target" / "sale.pid").read_text())
        while pathlib.Path(f"/proc/{pid}").exists() and "nbdkit" in pathlib.Path(f"/proc/{pid}/comm").read_text():
            time.sleep(0.05)
    hold_record(tally, "the page", house, folder / "target" / "day.sgq")


def tests(tally):
    if OWN:
        need_library()
    for name in ("decide", "sheet"):
        if not (BIN / name).exists():
            raise Stop(f"there is no target/bin/{name}: ./sgq {name} proves and builds it")
    with tempfile.TemporaryDirectory() as folder:
        house = House(pathlib.Path(folder))
        for test in (test_build, test_parameters, test_exports, test_day, test_haste, test_kinds, test_latency, test_full, test_killed,
                     test_term, test_spoiled, test_lost, test_hopeless, test_failing_disc, test_no_room, test_house, test_readme):
            began = time.monotonic()
            test(tally, house)
            print(f"{test.__name__[5:]}: {time.monotonic() - began:.1f} s", flush=True)


def main():
    take_debians_python()
    lacking = missing()
    if lacking:
        print(f"skipped: the nbdkit filter is not tried, for there is no {' and no '.join(lacking)} here")
        print("0 passed, 0 failed")
        return 0
    return run_tests(tests)


if __name__ == "__main__":
    sys.exit(main())
