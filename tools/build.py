#!/usr/bin/env python3
"""Proves the crates of the program and builds it, those that do not need each other side by side.

usage: build.py TOP MARK

TOP is the repository. MARK is a file that is made once all is built; its time is that of the beginning, so that a
source which changes meanwhile is newer. The status is 0 only where the program was built from these sources.
"""

import fcntl
import os
import subprocess
import sys
import tempfile
import time

PROGRAM = "vc_main"


def crates_of(top):
    """The crates that the program stands on, each with those that it names."""
    named = {}
    with open(f"{top}/crates.txt", encoding="utf-8") as lines:
        for line in lines:
            name, colon, rest = line.split("#")[0].partition(":")
            if colon:
                named[name.split()[0]] = rest.split()
    needed, waiting = {}, [PROGRAM]
    while waiting:
        name = waiting.pop()
        if name not in needed:
            needed[name] = [below for below in named[name] if below in named]
            waiting += needed[name]
    return needed


def sizes_of(top, crates):
    """The bytes of each crate's sources, by which its time is guessed."""
    return {
        name: sum(
            os.path.getsize(os.path.join(folder, file))
            for part in ("src", "specs", "proofs")
            for folder, _, files in os.walk(f"{top}/crates/{name}/{part}")
            for file in files
        )
        for name in crates
    }


def chains_of(crates, sizes):
    """The size of the longest chain from each crate up to the program."""
    above = {name: [other for other in crates if name in crates[other]] for name in crates}
    chains = {}

    def chain(name):
        if name not in chains:
            chains[name] = sizes[name] + max(map(chain, above[name]), default=0)
        return chains[name]

    for name in crates:
        chain(name)
    return chains


def clock(seconds):
    return f"{int(seconds) // 60}:{int(seconds) % 60:02}"


def say(text):
    print(f"vcsnr: {text}", flush=True)


def tail_of(log):
    with open(log, encoding="utf-8", errors="replace") as lines:
        return "".join(lines.readlines()[-30:])


def places():
    """How many crates are worked on at once: one for each processor, and for each three gigabytes of memory."""
    memory = os.sysconf("SC_PAGE_SIZE") * os.sysconf("SC_PHYS_PAGES")
    return max(1, min(len(os.sched_getaffinity(0)), memory // (3 << 30)))


def prove(top, logs):
    """Proves all crates but the program, and answers the first that was refused, if one was."""
    crates = crates_of(top)
    chains = chains_of(crates, sizes_of(top, crates))
    done, running, begun, most = set(), {}, time.monotonic(), places()
    libraries = sorted((name for name in crates if name != PROGRAM), key=lambda name: -chains[name])
    while len(done) < len(libraries):
        ready = [
            name
            for name in libraries
            if name not in done and name not in running and done.issuperset(crates[name])
        ]
        for name in ready[: most - len(running)]:
            jobs = max(1, most // min(most, len(running) + len(ready)))
            with open(f"{logs}/{name}", "wb") as log:
                running[name] = subprocess.Popen(
                    ["rt", "lib", "--jobs", str(jobs)],
                    cwd=f"{top}/crates/{name}",
                    stdin=subprocess.DEVNULL,
                    stdout=log,
                    stderr=subprocess.STDOUT,
                )
        time.sleep(0.2)
        for name, process in list(running.items()):
            if process.poll() is None:
                continue
            del running[name]
            if process.returncode != 0:
                for other in running.values():
                    other.terminate()
                return name
            done.add(name)
            say(f"{clock(time.monotonic() - begun)} {name} is proved, {len(libraries) - len(done)} left")
    return None


def build(top, logs):
    """Links the program, and answers whether it stands."""
    say("building the program")
    program = f"{top}/crates/{PROGRAM}/out/{PROGRAM}"
    with open(f"{logs}/{PROGRAM}", "wb") as log:
        ended = subprocess.run(
            ["rt", "run", "--", "context", "[a], b"],
            cwd=f"{top}/crates/{PROGRAM}",
            stdin=subprocess.DEVNULL,
            stdout=log,
            stderr=subprocess.STDOUT,
            check=False,
        )
    return ended.returncode == 0 and os.access(program, os.X_OK)


def main(top, mark):
    os.makedirs(os.path.dirname(mark), exist_ok=True)
    with open(f"{mark}.lock", "w", encoding="utf-8") as lock, tempfile.TemporaryDirectory() as logs:
        fcntl.flock(lock, fcntl.LOCK_EX)
        began = time.time()
        if os.path.exists(mark):
            os.remove(mark)
        say("proving and building the program; the first time takes some minutes")
        refused = prove(top, logs)
        if refused is None and not build(top, logs):
            refused = PROGRAM
        if refused is not None:
            say(f"{refused} was refused:\n{tail_of(f'{logs}/{refused}')}")
            return 1
        with open(mark, "w", encoding="utf-8"):
            pass
        os.utime(mark, (began, began))
    return 0


if __name__ == "__main__":
    sys.exit(main(*sys.argv[1:]))
