#!/usr/bin/env python3
"""Gets what links programs for x86-64 on another machine, where it is missing: Debian's cross compilers, and Debian's Rust
with the standard library of x86-64. It does nothing on x86-64, and elsewhere needs Debian and root.

    python3 tests/cross.py
"""
import os
import pathlib
import shutil
import subprocess
import sys
import tempfile

import machine
from machine import Stop, said

PACKAGES = ["gcc-x86-64-linux-gnu", "g++-x86-64-linux-gnu", "rustc-web", "cargo-web"]
LIBRARY = "libstd-rust-web-dev"  # of the same version as rustc-web


def apt(*words, **more):
    environment = dict(os.environ, DEBIAN_FRONTEND="noninteractive")
    words = ["apt-get", "-qq", "-o", "APT::Sandbox::User=root", *words]
    ended = subprocess.run(words, stdin=subprocess.DEVNULL, capture_output=True, text=True, env=environment, **more)
    if ended.returncode != 0:
        raise Stop(f"'{' '.join(words)}' ended with status {ended.returncode}\n{ended.stdout}{ended.stderr}".rstrip())


def unpack_library():
    """It is unpacked and not installed, so that the machine gets no packages of another architecture."""
    version = said(["dpkg-query", "--show", "--showformat=${Version}", "rustc-web"])
    with tempfile.TemporaryDirectory() as name:
        folder = pathlib.Path(name)
        for part in ("lists", "archives"):
            (folder / part / "partial").mkdir(parents=True)
        apart = [f"Dir::State::Lists={folder}/lists", f"Dir::Cache={folder}", "Dir::State::Status=/dev/null"]
        apart += ["APT::Architecture=amd64", "APT::Architectures=amd64"]
        apart = [word for option in apart for word in ("-o", option)]
        apt(*apart, "update")
        apt(*apart, "download", f"{LIBRARY}={version}", cwd=folder)
        shutil.rmtree(machine.UNPACKED, ignore_errors=True)
        machine.UNPACKED.mkdir(parents=True)
        subprocess.run(["dpkg-deb", "--extract", *folder.glob("*.deb"), machine.UNPACKED], check=True)


def main():
    if machine.OWN or not machine.missing():
        return
    lacks = " and ".join(machine.missing())
    if not shutil.which("apt-get") or os.geteuid() != 0:
        raise Stop(f"to link for x86-64 this machine lacks {lacks}; only root on Debian can be helped")
    print(f"getting {lacks} from Debian", flush=True)
    apt("update")
    apt("install", "--yes", "--no-install-recommends", *PACKAGES)
    unpack_library()
    machine.rust.cache_clear()
    if machine.missing():
        raise Stop(f"Debian's packages are installed, and {' and '.join(machine.missing())} is still missing")


try:
    main()
except (Stop, OSError, subprocess.SubprocessError) as why:
    print(f"cross: {why}")
    sys.exit(1)
