#!/usr/bin/env python3
"""Times the proved program `cards` and the plain Rust model, built for release, on the same session files.

Each file makes a byte engine with k = 32, a = 4, tau = 2, b = 4 on one of the two stores, sets it, and repeats one call.
What making, setting and refreshing alone cost is timed too and taken off. The two programs take turns, the least of three
runs counts, and both must answer the same. Run from the repository root after the programs are built (.ci/run, or
`tools/programs cards` and `cargo build --release` of the model with CARGO_TARGET_DIR=target/model)."""
import random
import subprocess
import sys
import time

K, A, TAU, B = 32, 4, 2, 4
NODES = K + A + B
PROGRAMS = {"cards": ["target/bin/cards"], "model": ["target/model/release/model", "answer"]}


def start(store):
    rng = random.Random(1)
    symbols = "\t".join(str(rng.randrange(256)) for _ in range(K * K))
    return [f"make\tb\t{store}\t{K}\t{A}\t{TAU}\t{B}", "set\t" + symbols]


def refreshes():
    return [f"refresh\t{n}" for n in range(NODES)]


def session(store, calls, lost=None):
    """The calls, with all nodes refreshed often enough that no place wears out."""
    lines = start(store) + ([f"lose\t{lost}"] if lost is not None else [])
    for at, call in enumerate(calls):
        if at % 100 == 0:
            lines += refreshes()
        lines.append(call)
    return lines


def workloads():
    rng = random.Random(2)
    sets = ["set\t" + "\t".join(str(rng.randrange(256)) for _ in range(K * K)) for _ in range(100)]
    places = [(rng.randrange(K), rng.randrange(K)) for _ in range(4000)]
    yield "set", sets, None, None
    yield "put", [f"put\t{r}\t{c}\t{(r * 7 + c) % 256}" for r, c in places], None, None
    yield "fetch, held", [f"fetch\t{r}\t{c}" for r, c in places], None, None
    yield "fetch, blank", [f"fetch\t{r}\t3" for r, _ in places], 3, None
    for name, node in (("mend, data node", 3), ("mend, Class A node", 33), ("mend, piggybacked node", 35), ("mend, Class B node", 38)):
        yield name, [call for _ in range(500) for call in (f"lose\t{node}", f"mend\t{node}")], None, [f"lose\t{node}"] * 1000


def run(command, lines):
    data = ("\n".join(lines) + "\n").encode()
    begin = time.perf_counter()
    out = subprocess.run(command, input=data, stdout=subprocess.PIPE, check=True).stdout
    return time.perf_counter() - begin, out


def least(lines):
    best, answers = {}, {}
    for _ in range(3):
        for name, command in PROGRAMS.items():
            seconds, out = run(command, lines)
            best[name] = min(seconds, best.get(name, seconds))
            answers[name] = out
    if answers["cards"] != answers["model"]:
        sys.exit("the answers differ")
    if b"no\t" in answers["cards"]:
        sys.exit("a call was declined")
    return best


def main():
    print("microseconds a call, whole lines of a session: proved, plain Rust, ratio")
    for store, title in (("m", "memory bank"), ("c", "card image")):
        for name, calls, lost, idle in workloads():
            whole = least(session(store, calls, lost))
            base = least(session(store, idle or ["refresh\t0"] * len(calls), lost))
            count = sum(1 for call in calls if not call.startswith("lose"))
            cost = {p: max(whole[p] - base[p], 1e-9) / count * 1e6 for p in PROGRAMS}
            print(f"{title:12} {name:24} {cost['cards']:9.2f} {cost['model']:9.2f} {cost['cards'] / cost['model']:6.2f}")


main()
