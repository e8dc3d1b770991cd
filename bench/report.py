#!/usr/bin/env python3
"""report.py WHAT DIR: the tables of a run, and the goals that it misses. DIR has what the program wrote (count, time, stack) and
callgrind's counts (cg.1, cg.2, ..). From every number that of an empty call is taken away."""
import os
import re
import sys

SERIES = ["1 KB", "4 KB", "16 KB", "64 KB"]
FACTS = ["bytes", "rows", "book", "refused"]
what, folder = sys.argv[1:]
missed = []


def lines(name):
    """What the program wrote: message -> side -> number, the least of several runs."""
    all = {}
    for line in open(f"{folder}/{name}"):
        message, side, number = line.rstrip("\n").split("\t")
        sides = all.setdefault(message, {})
        sides[side] = min(float(number), sides.get(side, float(number)))
    return all


def total(number):
    found = re.findall(r"^(?:totals|summary): (\d+)", open(f"{folder}/cg.{number}").read(), re.M)
    return int(found[-1])


def counts():
    """Each side's region is between two marks, so it is every second of callgrind's counts."""
    all, at = lines("count"), 0
    for message in sorted_by_run(all):
        for side in [s for s in all[message] if s not in FACTS]:
            at += 2
            all[message][side] = total(at) / all[message][side]
    return all


def sorted_by_run(all):
    """The empty call is first in the run; its lines may come later."""
    return sorted(all, key=lambda m: m != "-")


def net(all):
    empty = all.pop("-")["empty"]
    return {m: {s: v if s in FACTS else v - empty for s, v in sides.items()} for m, sides in all.items()}


def goals(message):
    return {"prepared": 1.0 if message == "waveform" else 0.55, "whole": 1.0}


def ratio(message, sides, side, unit):
    r = sides[side] / sides["crate"]
    goal = goals(message)[side]
    if r > goal:
        missed.append(f"{message}, {side}, {unit}: {r:.2f} of the crate's, {goal} asked")
    return f"{r:7.2f}{'*' if r > goal else ' '}"


def parts(all):
    """The messages that bench/ makes, and the truck's of bench/trucks.txt, whose names have the sample and the writer in them."""
    truck = {m for m in all if "/" in m}
    return {m: s for m, s in all.items() if m not in truck}, {m: s for m, s in all.items() if m in truck}


def trucks(title, all):
    """The second part: no goal is set on it."""
    read = {m: s for m, s in all.items() if "refused" not in s}
    ratios = {side: {m: s[side] / s["crate"] for m, s in read.items()} for side in ("prepared", "whole")}
    print(f"\n{title}")
    print(f"{'message':<36}{'bytes':>6}{'rows':>6}{'book':>6}{'crate':>8}{'prepared':>10}{'ratio':>7}{'whole':>8}{'ratio':>7}")
    for m, s in read.items():
        facts = f"{m:<36}{s['bytes']:>6.0f}{s['rows']:>6.0f}{s['book']:>6.0f}{s['crate']:>8.0f}"
        print(f"{facts}{s['prepared']:>10.0f}{ratios['prepared'][m]:>7.2f}{s['whole']:>8.0f}{ratios['whole'][m]:>7.2f}")
    for side, of in ratios.items():
        worst = max(of, key=of.get)
        print(f"{side}: mean {sum(of.values()) / len(of):.2f}, worst {of[worst]:.2f} ({worst})")
    no = [f"{m} ({s['refused']:.0f})" for m, s in all.items() if "refused" in s]
    if no:
        print("refused, by both with the same number: " + ", ".join(no))


def table(title, all, unit):
    print(f"\n{title}")
    print(f"{'message':<12}{'bytes':>7}{'rows':>7}{'book':>6}{'crate':>11}{'prepared':>11}{'ratio':>8} {'whole':>11}{'ratio':>8} {'2048 rows':>11}")
    for m, s in all.items():
        big = s.get("prepared, 2048 rows")
        facts = f"{m:<12}{s['bytes']:>7.0f}{s['rows']:>7.0f}{s['book']:>6.0f}{s['crate']:>11.0f}"
        print(
            f"{facts}{s['prepared']:>11.0f}{ratio(m, s, 'prepared', unit)}"
            f"{s['whole']:>11.0f}{ratio(m, s, 'whole', unit)}{f'{big:>11.0f}' if big else '          -'}"
        )


def flat(all, unit):
    """Cost per byte from 1 KB to 64 KB: no more than a fifth above the smallest."""
    per = {m: all[m]["prepared"] / all[m]["bytes"] for m in SERIES}
    print(f"{unit} a byte, prepared: " + ", ".join(f"{m} {v:.2f}" for m, v in per.items()))
    if max(per.values()) > 1.2 * min(per.values()):
        missed.append(f"{unit} a byte is not flat from 1 KB to 64 KB")


def stack(name, of):
    all = lines(name)
    empty = all["-"]["empty"]
    print(f"\nbytes of stack below the caller, {of} code")
    for m in ["heartbeat", "nest F1 LE", "nest M2 LE"]:
        print(f"{m:<12}" + "".join(f"  {s} {all[m][s] - empty:.0f}" for s in ["crate", "prepared", "whole"]))
    deep = [m for m in all if m.startswith(("16 Final", "16 Appendable", "16 Mutable"))]
    print(f"the most of {len(deep)} messages of 16 values, each in the other (bench/src/deep.rs)")
    for s in ["crate", "prepared", "whole"]:
        most = max(deep, key=lambda m: all[m][s])
        print(f"  {s:<10}{all[most][s] - empty:>7.0f}  {most}")


def family(message):
    return "Tk" if message.startswith("Tk") else message[0]


def summary(label, of):
    worst = max(of, key=of.get)
    over = sum(r > 1 for r in of.values())
    return f"{label:<8}{len(of):>5}{sum(of.values()) / len(of):>8.2f}{of[worst]:>8.2f}{over:>8}  {worst}"


def families():
    """Of every message: the ratio's mean and worst by family, in instructions and in time."""
    for unit, all in (("instructions", net(counts())), ("time", net(lines("time")))):
        read = {m: s for m, s in all.items() if "refused" not in s}
        for mode, some in (("the crate's mode", {m for m in read if not m.endswith(" S")}), ("the standard's mode", {m for m in read if m.endswith(" S")})):
            for side in ("prepared", "whole"):
                of = {m: read[m][side] / read[m]["crate"] for m in some}
                print(f"\n{unit}, {side} call, {mode}: the ratio to the crate\n{'family':<8}{'lines':>5}{'mean':>8}{'worst':>8}{'over 1':>8}")
                for f in sorted({family(m) for m in of}):
                    print(summary(f, {m: r for m, r in of.items() if family(m) == f}))
                print(summary("all", of))
    print(f"\n{sum('refused' in s for s in all.values())} lines are refused in the crate's mode")


if what == "real":
    families()
    sys.exit(0)
if what in ("count", "all"):
    own, real = parts(net(counts()))
    table("instructions a message (the table lent has the rows needed; last column: prepared with a table of 2,048 rows)", own, "instructions")
    flat(own, "instructions")
    trucks("instructions a message that real DDS wrote", real)
if what in ("time", "all"):
    own, real = parts(net(lines("time")))
    table("nanoseconds a message, best (tables as above)", own, "nanoseconds")
    flat(own, "nanoseconds")
    trucks("nanoseconds a message that real DDS wrote, best", real)
if what in ("stack", "all"):
    stack("stack", "x86-64")
    if os.path.exists(f"{folder}/stack-native"):
        stack("stack-native", "aarch64")
print(f"\n{len(missed)} goals missed" + (": a ratio with * is over its goal" if missed else ""))
for m in missed:
    print("* " + m)
sys.exit(bool(missed))
