#!/usr/bin/env python3
"""A client for the tests: keeps so many requests under way through libnbd, and holds every byte that it reads to what it knows.

    load.py SOCKET EXPORT DISC ORIGINAL KEY=NUMBER..

DISC is the file that is served, ORIGINAL a copy of it as it was. Keys: size (bytes of a request), depth, seconds, first and
blocks (its own part of the disc, in requests), writes (of 100 requests), rate (a second; 0: as many as go), seed. At the end
it reads once more what it wrote; where the server has gone, in DISC itself. Prints one line of JSON: the latency in seconds of
each request, in order, how many it made in all, how many ended with each error number, how many bytes were wrong, and whether
the server has gone.
"""
import json
import mmap
import random
import sys
import time

import nbd

USUAL = {"size": 4096, "depth": 1, "seconds": 1.0, "first": 0, "blocks": 64, "writes": 0, "rate": 0, "seed": 1}


def mapped(path):
    with open(path, "rb") as file:
        return mmap.mmap(file.fileno(), 0, prot=mmap.PROT_READ)


class Client:
    def __init__(self, socket, export, disc, original, told):
        self.told, self.random = told, random.Random(told["seed"])
        self.file, self.original = mapped(disc), mapped(original)
        self.disc = nbd.NBD()
        self.disc.set_export_name(export)
        self.disc.connect_unix(socket)
        self.written = {}  # by block: what was written there last; None where a write failed, or nobody knows
        self.under_way, self.ended = {}, []  # blocks, and requests whose end was not looked at yet
        self.latencies, self.errors, self.wrong = [], {}, 0

    def ask(self, block, writes):
        """Starts a request, on a block on which none is under way."""
        size, began = self.told["size"], time.monotonic()
        content = self.random.randbytes(16) * (size // 16) if writes else self.known(block)
        buffer = nbd.Buffer.from_bytearray(bytearray(content)) if writes else nbd.Buffer(size)

        def end(error):
            self.ended.append((block, writes, content, buffer, time.monotonic() - began, getattr(error, "value", error)))
            return 1

        self.under_way[block] = writes
        (self.disc.aio_pwrite if writes else self.disc.aio_pread)(buffer, block * size, end)

    def known(self, block):
        size = self.told["size"]
        return self.written.get(block, self.original[block * size : (block + 1) * size])

    def look(self):
        """Looks at what has ended: its latency, and of a read every byte."""
        for block, writes, content, buffer, latency, error in self.ended:
            del self.under_way[block]
            self.latencies.append(latency)
            if error:
                self.errors[error] = self.errors.get(error, 0) + 1
            if writes:
                self.written[block] = None if error else content
            elif not error and content is not None:
                self.wrong += buffer.to_bytearray() != content
        self.ended.clear()

    def poll(self, seconds):
        self.disc.poll(max(1, int(seconds * 1000)))
        self.look()

    def free_block(self):
        block = self.random.randrange(self.told["blocks"])
        while self.told["first"] + block in self.under_way:
            block = (block + 1) % self.told["blocks"]
        return self.told["first"] + block

    def run(self):
        began, asked, rate = time.monotonic(), 0, self.told["rate"]
        until = began + self.told["seconds"]
        while (now := time.monotonic()) < until:
            due = began + asked / rate if rate else now
            if len(self.under_way) >= self.told["depth"]:
                self.poll(until - now)
            elif due > now:
                self.poll(min(due, until) - now)
            else:
                self.ask(self.free_block(), self.random.randrange(100) < self.told["writes"])
                asked += 1
        self.finish()

    def finish(self):
        while self.under_way:
            self.poll(1)

    def read_back(self):
        for block in sorted(self.written):
            while len(self.under_way) >= max(8, self.told["depth"]):
                self.poll(1)
            self.ask(block, False)
        self.finish()

    def look_at_disc(self):
        """What was answered is on the disc, though the server has gone; a write that was under way may be there or not."""
        size = self.told["size"]
        self.look()
        for block, content in self.written.items():
            if content is not None and not self.under_way.get(block):
                self.wrong += self.file[block * size : (block + 1) * size] != content


def main():
    told = dict(USUAL)
    for word in sys.argv[5:]:
        key, value = word.split("=")
        told[key] = type(USUAL[key])(value)
    client, is_gone, latencies = Client(*sys.argv[1:5], told), False, None
    try:
        client.run()
        latencies = list(client.latencies)
        client.read_back()
        client.disc.shutdown()
    except nbd.Error:
        is_gone = True
        client.look_at_disc()
    made = {"latencies": client.latencies if latencies is None else latencies, "made": len(client.latencies)}
    print(json.dumps({**made, "errors": client.errors, "wrong": client.wrong, "gone": is_gone}))


main()
