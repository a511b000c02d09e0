#!/usr/bin/env python3
"""Lists damaged copies of class files and counts the exit statuses.

usage: damaged.py [--copies N] [--seed S] [--jobs J] [PATH...]

Each PATH is a class file or a folder of them; without one, the classes of Debian's junit4, libasm-java,
libcommons-lang3-java and libguava-java are taken. A copy is a class file with one damage: bytes changed, cut out,
doubled or put in, the end cut off, or a two-byte number set to an extreme. The same seed gives the same copies.
It fails where a copy ends with a status that isn't in the table of the README, after more than 10 seconds, or with
more than 256 MB of memory."""
import argparse
import collections
import concurrent.futures
import os
import random
import resource
import subprocess
import sys
import tempfile
import zipfile

HERE = os.path.dirname(os.path.abspath(__file__))
MUTEST = os.path.join(HERE, "..", "mutest")
JARS = ["junit4", "asm", "asm-tree", "asm-analysis", "asm-commons", "asm-util", "commons-lang3", "guava"]
STATUSES = {0, 5}
MEMORY = 256 * 1024 * 1024


def class_files(paths):
    for path in paths:
        if os.path.isdir(path):
            for folder, _, names in sorted(os.walk(path)):
                for name in sorted(names):
                    if name.endswith(".class"):
                        with open(os.path.join(folder, name), "rb") as file:
                            yield file.read()
        elif path.endswith(".jar"):
            with zipfile.ZipFile(path) as jar:
                for name in sorted(jar.namelist()):
                    if name.endswith(".class"):
                        yield jar.read(name)
        else:
            with open(path, "rb") as file:
                yield file.read()


def damaged(rng, data):
    copy = bytearray(data)
    kind = rng.randrange(6)
    at = rng.randrange(len(copy))
    if kind == 0:
        for _ in range(rng.randint(1, 4)):
            copy[rng.randrange(len(copy))] = rng.randrange(256)
    elif kind == 1:
        del copy[at:at + rng.randint(1, 8)]
    elif kind == 2:
        del copy[at:]
    elif kind == 3:
        copy[at:at] = copy[at:at + rng.randint(1, 64)]
    elif kind == 4:
        copy[at:at] = bytes(rng.randrange(256) for _ in range(rng.randint(1, 8)))
    else:
        copy[at:at + 2] = rng.choice([b"\x00\x00", b"\xff\xff", b"\x7f\xff", b"\x80\x00"])
    return bytes(copy)


def limited():
    resource.setrlimit(resource.RLIMIT_AS, (MEMORY, MEMORY))


def status_of(program, folder, number, data):
    path = os.path.join(folder, f"{number}.class")
    with open(path, "wb") as file:
        file.write(data)
    try:
        ended = subprocess.run([program, "list", path], stdout=subprocess.DEVNULL, stderr=subprocess.DEVNULL,
                               timeout=10, preexec_fn=limited)
        status = ended.returncode
    except subprocess.TimeoutExpired:
        status = "hangs"
    if status in STATUSES:
        os.unlink(path)
    return status, path


def main():
    words = argparse.ArgumentParser(usage=__doc__)
    words.add_argument("--copies", type=int, default=100000)
    words.add_argument("--seed", type=int, default=1)
    words.add_argument("--jobs", type=int, default=os.cpu_count())
    words.add_argument("--program")
    words.add_argument("paths", nargs="*")
    given = words.parse_args()
    paths = given.paths or [f"/usr/share/java/{jar}.jar" for jar in JARS]
    files = list(class_files(paths))
    program = given.program
    if not program:
        # The script builds the program where it has to; afterwards the program is called without it.
        subprocess.run([MUTEST, "list", "/nowhere"], stdout=subprocess.DEVNULL)
        program = os.path.join(HERE, "..", "crates", "mutest", "out", "mutest")
    rng = random.Random(given.seed)
    counts, bad = collections.Counter(), []
    folder = tempfile.mkdtemp(prefix="damaged-")
    with concurrent.futures.ThreadPoolExecutor(given.jobs) as pool:
        for begin in range(0, given.copies, 1000):
            copies = [damaged(rng, rng.choice(files)) for _ in range(min(1000, given.copies - begin))]
            for status, path in pool.map(lambda c: status_of(program, folder, begin + c[0], c[1]), enumerate(copies)):
                counts[status] += 1
                if status not in STATUSES:
                    bad.append(path)
    print(f"{given.copies} copies of {len(files)} class files, seed {given.seed}")
    for status, count in sorted(counts.items(), key=str):
        print(f"    status {status}: {count}")
    if bad:
        print("kept:", *bad[:20])
    else:
        os.rmdir(folder)
    sys.exit(1 if bad else 0)


if __name__ == "__main__":
    main()
