#!/usr/bin/env python3
"""What the library takes of a cart: code, constants, data, symbols and stack, measured from the code itself.

    tools/footprint.py             every call, on x86-64 and on 64-bit Arm
    tools/footprint.py --readme    writes the table of README.md anew
    tools/footprint.py --check     fails if one of the bounds below is passed

The code is the archive's (x86-64) and the object's (Arm). The stack is read from the same code as text, which the kit's compiler left
beside it; assembled, that must give the same code, byte for byte. Every way through a function
is followed, with what each instruction does to the stack pointer and what it uses below it (on x86-64 a function that calls nothing
may use 128 bytes there, the red zone); a call adds what the called function takes, and on x86-64 its return address. Counted is all
that a call puts on the stack, from its own return address on, without the arguments that its caller put there and without what the
host's own memset takes. A function that calls itself counts as often as it can be on the stack at once. A call's code is its own and
that of every function it can reach, which is what a linker with --gc-sections keeps.
"""

import os
import re
import shutil
import struct
import subprocess
import sys

ROOT = os.path.dirname(os.path.dirname(os.path.abspath(__file__)))
MACHINES = {"x86_64": "x86-64", "aarch64": "64-bit Arm"}
RETURN_ADDRESS = {"x86_64": 8, "aarch64": 0}
PADDED = {"x86_64": ["-march=x86-64-v2"], "aarch64": []}
NEEDED = ["memset"]
# No more than this, in bytes: near what is measured, so that growth is noticed.
MOST_CODE = {"x86_64": 35100, "aarch64": 31000}
MOST_CONSTANTS = {"x86_64": 690, "aarch64": 920}
MOST_STACK = {"x86_64": 930, "aarch64": 840}
# The function that calls itself, how often it can be on the stack at once (its exponent falls from 64 to 0), and the bound for the calls
# that can reach it.
TIMES = {"prefixes::audit_block": 65}
MOST_DEEP_STACK = {"x86_64": 4420, "aarch64": 4440}
# The calls of README.md's table.
SHOWN = ["member", "set_member", "set_insert", "set_union", "map_site_over_factory", "set_reserve_best", "bulletin_apply", "set_read", "signed_read"]
SHOWN += ["set_prefix_blocks", "set_audit_blocks"]


# ---- object files


def sections(data):
    """Name to (type, flags, contents, size) of each section of an ELF file, and its undefined symbols."""
    at, = struct.unpack_from("<Q", data, 0x28)
    size, count, names = struct.unpack_from("<HHH", data, 0x3A)
    heads = [struct.unpack_from("<IIQQQQIIQQ", data, at + i * size) for i in range(count)]

    def text(table, offset):
        start = heads[table][4] + offset
        return data[start : data.index(b"\0", start)].decode("utf-8")

    found, undefined = {}, []
    for head in heads:
        kind, flags, offset, length = head[1], head[2], head[4], head[5]
        found[text(names, head[0])] = (kind, flags, b"" if kind == 8 else data[offset : offset + length], length)
        if kind == 2:
            for place in range(offset, offset + length, 24):
                name, _, _, section = struct.unpack_from("<IBBH", data, place)
                if section == 0 and name:
                    undefined.append(text(head[6], name))
    return found, undefined


def member_of(archive):
    """The one object file in an archive."""
    at, objects = 8, []
    while at < len(archive):
        name, size = archive[at : at + 16], int(archive[at + 48 : at + 58])
        if name.rstrip() not in (b"/", b"//"):
            objects.append(archive[at + 60 : at + 60 + size])
        at += 60 + size + size % 2
    if len(objects) != 1:
        sys.exit(f"footprint: the archive has {len(objects)} objects, not 1")
    return objects[0]


def contents(path):
    """The bytes of a file of the project."""
    with open(os.path.join(ROOT, path), "rb") as f:
        return f.read()


def made(wanted):
    """What tools/native.sh makes."""
    return subprocess.run([os.path.join(ROOT, "tools/native.sh"), wanted], stdout=subprocess.PIPE, check=True).stdout.decode().strip()


def assembled(machine, text):
    """The object that the kit's compiler makes of a text. Between functions it has to pad as the compiler did, for a newer processor."""
    kit = os.path.dirname(os.path.dirname(os.path.realpath(shutil.which("rt"))))
    to = f"build/again_{machine}.o"
    words = [f"--target={machine}-unknown-linux-gnu", *PADDED[machine], "-c", "-x", "assembler", text, "-o", to]
    subprocess.run([os.path.join(kit, "toolchain/bin/clang"), *words], cwd=ROOT, check=True)
    return to


# ---- the stack, from the code as text


def moved(machine, words):
    """By how much an instruction lengthens the stack; it ends the program where it does something unknown to the stack pointer."""
    if machine == "x86_64":
        if words[0] in ("pushq", "popq"):
            return 8 if words[0] == "pushq" else -8
        if words[-1] != "%rsp" or words[0] in ("cmpq", "testq"):
            return 0
        m = re.fullmatch(r"(addq|subq) \$(-?\d+), %rsp", " ".join(words))
        if m:
            return int(m.group(2)) * (1 if m.group(1) == "subq" else -1)
        m = re.fullmatch(r"leaq (-?\d+)\(%rsp\), %rsp", " ".join(words))
        if m:
            return -int(m.group(1))
    else:
        line = " ".join(words)
        m = re.search(r"\[sp, #-(\d+)\]!", line)
        if m:
            return int(m.group(1))
        m = re.search(r"\[sp\], #(\d+)", line)
        if m:
            return -int(m.group(1))
        m = re.fullmatch(r"(add|sub) sp, sp, #(\d+)", line)
        if m:
            return int(m.group(2)) * (1 if m.group(1) == "sub" else -1)
        if "sp," not in line or words[1] != "sp,":
            return 0
    sys.exit(f"footprint: what does this do to the stack? {' '.join(words)}")


def below(machine, words):
    """How far below the stack pointer an instruction reads or writes."""
    found = re.findall(r"-(\d+)\(%rsp" if machine == "x86_64" else r"\[sp, #-(\d+)\](?!!)", " ".join(words))
    return max(map(int, found), default=0)


def functions(machine, text):
    """Name to the lines of each function: instructions as words, and labels as strings."""
    comment = "#" if machine == "x86_64" else "//"
    found, lines = {}, None
    for line in text.splitlines():
        line = re.sub(rf"\s*{comment}\s.*$", "", line)
        m = re.match(r'^"?([\w:]+?)"?:$', line)
        if m and not m.group(1).startswith(".L"):
            lines = found.setdefault(m.group(1), [])
        elif re.match(r"^\.L\w+:$", line):
            if lines is not None:
                lines.append(line[:-1])
        elif line.startswith("\t.size"):
            lines = None
        elif line.startswith("\t") and not line.startswith("\t.") and lines is not None:
            lines.append(line.split())
    return {name: lines for name, lines in found.items() if lines}


ENDS = {"retq", "ret", "ud2", "brk", "jmp", "jmpq", "b", "br"}
CALLS = {"callq", "bl"}


def targets(words, lines, labels):
    """The labels that an instruction may jump to. A jump by a table may go to any label that no instruction names."""
    if words[0] in ("jmpq", "br"):
        named = {word.rstrip(",") for line in lines if not isinstance(line, str) for word in line[1:]}
        return [label for label in labels if label not in named]
    return [word.rstrip(",") for word in words[1:] if word.rstrip(",") in labels]


def depths(machine, lines):
    """Each instruction that can be reached, with the stack's length before it: every way through the function is followed."""
    labels = {line: i for i, line in enumerate(lines) if isinstance(line, str)}
    before, todo = {}, [(0, 0)]
    while todo:
        i, depth = todo.pop()
        if i >= len(lines) or before.get(i) == depth:
            continue
        if i in before:
            sys.exit("footprint: two ways with another length of the stack meet")
        before[i] = depth
        words = lines[i]
        if isinstance(words, str):
            todo.append((i + 1, depth))
            continue
        depth += moved(machine, words)
        todo += [(labels[target], depth) for target in targets(words, lines, labels)]
        if words[0] not in ENDS:
            todo.append((i + 1, depth))
    return {i: depth for i, depth in before.items() if not isinstance(lines[i], str)}


def measured(machine, text):
    """Name to (what it takes of the stack, the functions it can reach), for each function of the code as text."""
    bodies, done = functions(machine, text), {}

    def callee(words):
        if words[0] in CALLS or words[0] in ("jmp", "b"):
            name = words[1].replace("@PLT", "").strip('"')
            return name if name in bodies or name in NEEDED else None
        return None

    def measure(name, path=()):
        if name in path:
            sys.exit(f"footprint: {name} calls itself")
        if name not in bodies:
            return RETURN_ADDRESS[machine], set()
        if name not in done:
            most, reached, again = 0, {name}, 0
            for i, depth in depths(machine, bodies[name]).items():
                words = bodies[name][i]
                most = max(most, depth + max(0, moved(machine, words)), depth + below(machine, words))
                if callee(words) == name and name in TIMES:
                    again = max(again, depth + RETURN_ADDRESS[machine])
                elif callee(words):
                    more, others = measure(callee(words), (*path, name))
                    most, reached = max(most, depth + more), reached | others
            done[name] = (RETURN_ADDRESS[machine] + most + again * (TIMES.get(name, 1) - 1), reached)
        return done[name]

    return {name: measure(name) for name in bodies}


# ---- the whole


def footprint(machine):
    """Code, constants, data, undefined symbols, and (code, stack) of each call."""
    shipped = contents(made("aarch64")) if machine == "aarch64" else member_of(contents(made("archive")))
    text = f"build/host_{machine}.s"
    parts, undefined = sections(shipped)
    loaded = {name: part for name, part in parts.items() if part[1] & 2 and part[3]}
    code = {name: part for name, part in loaded.items() if part[1] & 4}
    data = {name: part for name, part in loaded.items() if part[1] & 1 or part[0] == 8}
    again, _ = sections(contents(assembled(machine, text)))
    for name, part in code.items():
        if again.get(name, (0, 0, b""))[2] != part[2]:
            sys.exit(f"footprint: {name} is not the code that the text gives")
    stacks = measured(machine, contents(text).decode("utf-8"))
    size = {name.removeprefix(".text."): part[3] for name, part in code.items()}
    if set(size) != set(stacks):
        sys.exit(f"footprint: code and text have other functions: {set(size) ^ set(stacks)}")
    calls, deep = {}, set()
    for name, (stack, reached) in stacks.items():
        if name.startswith("wimblorque_"):
            calls[name] = (sum(size[each] for each in reached), stack)
            deep |= {name} if reached & TIMES.keys() else set()
    constants = sum(part[3] for name, part in loaded.items() if name not in code and name not in data)
    return {
        "code": sum(size.values()),
        "constants": constants,
        "data": sum(part[3] for part in data.values()),
        "needs": sorted(undefined),
        "calls": calls,
        "stack": max(stack for name, (_, stack) in calls.items() if name not in deep),
        "deep stack": max(calls[name][1] for name in deep),
    }


def number(n):
    """With a comma for the thousands."""
    return f"{n:,}"


def table(found):
    """The table of README.md."""
    both = [found[machine] for machine in MACHINES]
    rows = ["| bytes | " + " | ".join(MACHINES.values()) + " |", "|---|" + "---|" * len(both)]
    rows.append(f"| code, all {len(both[0]['calls'])} calls | " + " | ".join(number(f["code"]) for f in both) + " |")
    rows.append("| constants, read-only | " + " | ".join(number(f["constants"]) for f in both) + " |")
    rows.append("| data and bss | " + " | ".join(number(f["data"]) for f in both) + " |")
    rows.append("| stack, the most that a call takes, but for the audit | " + " | ".join(number(f["stack"]) for f in both) + " |")
    for name in SHOWN:
        cells = [f"{number(f['calls']['wimblorque_' + name][0])} code, {number(f['calls']['wimblorque_' + name][1])} stack" for f in both]
        rows.append(f"| `wimblorque_{name}` alone | " + " | ".join(cells) + " |")
    return "\n".join(rows)


def faults(found):
    """Each bound that is passed."""
    for machine, f in found.items():
        for what, most in (("code", MOST_CODE), ("constants", MOST_CONSTANTS), ("stack", MOST_STACK), ("deep stack", MOST_DEEP_STACK)):
            if f[what] > most[machine]:
                yield f"{machine}: {what} {f[what]}, more than {most[machine]}"
        if f["data"]:
            yield f"{machine}: {f['data']} bytes of data"
        if f["needs"] != NEEDED:
            yield f"{machine}: needs {f['needs']}, not {NEEDED}"


def write_readme(found):
    """Puts the table in the place of README.md's."""
    before, _, rest = contents("README.md").decode("utf-8").partition("| bytes |")
    _, end, after = rest.partition("\n\n")
    if not end:
        sys.exit("footprint: README.md has no such table")
    with open(os.path.join(ROOT, "README.md"), "w", encoding="utf-8") as f:
        f.write(before + table(found) + end + after)


def check(found):
    """Whether every bound is held; which is not, or in one line what was measured."""
    wrong = list(faults(found))
    for fault in wrong:
        print("footprint:", fault, file=sys.stderr)
    if not wrong:
        said = "; ".join(
            f"{m}: {number(f['code'])} bytes of code, {f['stack']} of stack at most, {number(f['deep stack'])} for the audit" for m, f in found.items()
        )
        print(f"footprint: no data, no bss, one symbol needed ({NEEDED[0]}); {said}")
    return not wrong


def main():
    """What was asked for."""
    found = {machine: footprint(machine) for machine in MACHINES}
    if sys.argv[1:] == ["--check"]:
        return 0 if check(found) else 1
    if sys.argv[1:] == ["--readme"]:
        write_readme(found)
        return 0
    for machine, f in found.items():
        print(f"{MACHINES[machine]}: code {f['code']}, constants {f['constants']}, data and bss {f['data']}, needs {' '.join(f['needs'])}")
        for name, (code, stack) in sorted(f["calls"].items(), key=lambda item: item[1][1]):
            print(f"  {name:44} code {code:6}   stack {stack:4}")
    return 0


if __name__ == "__main__":
    sys.exit(main())
