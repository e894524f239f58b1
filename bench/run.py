#!/usr/bin/env python3
"""Times `harbor talk` from outside.

usage: bench/run.py [--runs N]

Each input is a file of pipelined requests on one connection, which the program reads on standard input. What is timed is
the whole run, less the run of what stands before the timed requests: nothing, or the pushes of what is pulled. Every
answer's status is counted, so that no figure stands for refused requests. Beside the large bodies stands `sha256sum` on
the same bytes in the same run: a push takes the digest of its bytes, so it can't be faster than the best digest.
"""
import argparse
import hashlib
import os
import re
import statistics
import subprocess
import sys
import tempfile
import time

TOP = os.path.dirname(os.path.dirname(os.path.abspath(__file__)))
STATUS = re.compile(rb"HTTP/1\.1 (\d{3}) ")


def digest(body):
    return "sha256:" + hashlib.sha256(body).hexdigest()


def head(line, length=0):
    return f"{line} HTTP/1.1\r\nHost: r\r\nContent-Length: {length}\r\n\r\n".encode()


def push(body):
    return head(f"POST /v2/library/a/blobs/uploads/?digest={digest(body)}", len(body)) + body


def pull(body):
    return head(f"GET /v2/library/a/blobs/{digest(body)}")


def blobs(count, size):
    return [(b"%08d" % i) * (size // 8) for i in range(count)]


def inputs():
    """Name, what is counted, how much of it, the statuses, and the bytes before and in the timed part."""
    few = blobs(2_000, 1_024)
    large = blobs(16, 4 * 1024 * 1024)
    size = len(large) * len(large[0]) / 1e6
    yield "heads", "requests", 100_000, {b"200": 100_000}, b"", head("GET /v2/") * 100_000
    yield "pushes of 1 KiB", "pushes", len(few), {b"201": len(few)}, b"", b"".join(map(push, few))
    yield "pulls of 1 KiB", "pulls", len(few), {b"200": len(few)}, b"".join(map(push, few)), b"".join(map(pull, few))
    yield "pushes of 4 MiB", "MB", size, {b"201": len(large)}, b"", b"".join(map(push, large))
    yield "pulls of 4 MiB", "MB", size, {b"200": len(large)}, b"".join(map(push, large)), b"".join(map(pull, large))


def talk(data):
    with tempfile.TemporaryFile() as source, tempfile.TemporaryFile() as sink:
        source.write(data)
        source.seek(0)
        began = time.perf_counter()
        ended = subprocess.run([os.path.join(TOP, "harbor"), "talk"], stdin=source, stdout=sink, check=False)
        took = time.perf_counter() - began
        sink.seek(0)
        return took, ended.returncode, sink.read()


def sha256sum(data):
    with tempfile.TemporaryFile() as source:
        source.write(data)
        source.seek(0)
        began = time.perf_counter()
        subprocess.run(["sha256sum"], stdin=source, stdout=subprocess.DEVNULL, check=True)
        return time.perf_counter() - began


def count(answers):
    found = {}
    for status in STATUS.findall(answers):
        found[status] = found.get(status, 0) + 1
    return found


def measure(before, data, statuses, runs):
    """The median of the time with the timed part less that without it, in turns."""
    taken = []
    for _ in range(runs):
        base, _, first = talk(before)
        took, status, answers = talk(before + data)
        got = count(answers[len(first):])
        if status != 0 or not answers.startswith(first) or got != statuses:
            return None, f"status {status}, answers {got}"
        taken.append(took - base)
    return statistics.median(taken), None


def main():
    parser = argparse.ArgumentParser()
    parser.add_argument("--runs", type=int, default=9)
    runs = parser.parse_args().runs
    talk(b"")
    failed = False
    for name, unit, much, statuses, before, data in inputs():
        took, wrong = measure(before, data, statuses, runs)
        if wrong:
            failed = True
            print(f"{name:18} not measured: {wrong}")
            continue
        print(f"{name:18} {much / took:10,.0f} {unit} a second")
        if name == "pushes of 4 MiB":
            took = statistics.median(sha256sum(data) for _ in range(runs))
            print(f"{'  sha256sum':18} {much / took:10,.0f} {unit} a second")
    sys.exit(1 if failed else 0)


if __name__ == "__main__":
    main()
