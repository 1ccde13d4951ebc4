#!/usr/bin/env python3
"""divided.py PROGRAM [CYCLES [REGISTERS]]: a tree of sixteen divided clocks with 1,000 registers each.

Each divided clock is a register that its parent's rise inverts; the root's parent is the input clk. Each register takes the one before it
at the rise of its clock. The dump is made here, without a simulator. Printed are the seconds of a processor, the steps, the blocks that
the steps wake, and the microseconds of each; then the same for a step of ten registers of another clock while the tree stays.
"""
import os, random, resource, subprocess, sys, tempfile

program = os.path.abspath(sys.argv[1])
cycles = int(sys.argv[2]) if len(sys.argv) > 2 else 2000
registers = int(sys.argv[3]) if len(sys.argv) > 3 else 1000


def parent(k):
    return "clk" if k == 0 else f"h{(k - 1) // 2}"


def design(clocks):
    ports = ["input clk", "input other", "input d"] + [f"output reg h{k}" for k in range(clocks)]
    lines = [f"module tree({', '.join(ports)});"]
    for k in range(clocks):
        lines.append(f"always @(posedge {parent(k)}) h{k} <= ~h{k};")
        lines.append("reg " + ", ".join(f"r{k}_{i}" for i in range(registers)) + ";")
        for i in range(registers):
            lines.append(f"always @(posedge h{k}) r{k}_{i} <= {f'r{k}_{i - 1}' if i else 'd'};")
    lines.append("reg " + ", ".join(f"s{i}" for i in range(10)) + ";")
    lines += [f"always @(posedge other) s{i} <= {f's{i - 1}' if i else 'd'};" for i in range(10)]
    return "\n".join(lines + ["endmodule", ""])


def code(n):
    text = ""
    while True:
        text += chr(33 + n % 94)
        n //= 94
        if n == 0:
            return text


def dump(path, clocks, moving, seed=1):
    """Writes a dump in which clk rises each cycle, or the other clock alone; returns the steps and the blocks that wake."""
    random.seed(seed)
    names = ["clk", "other", "d"] + [f"h{k}" for k in range(clocks)] + [f"r{k}_{i}" for k in range(clocks) for i in range(registers)] + [f"s{i}" for i in range(10)]
    of = {name: code(n) for n, name in enumerate(names)}
    value = dict.fromkeys(names, 0)
    woken, steps = 0, 0
    with open(path, "w") as out:
        out.write("$scope module tb $end\n$scope module dut $end\n")
        out.writelines(f"$var reg 1 {of[name]} {name} $end\n" for name in names)
        out.write("$upscope $end\n$upscope $end\n$enddefinitions $end\n#0\n")
        out.writelines(f"0{of[name]}\n" for name in names)
        for cycle in range(cycles):
            d = random.getrandbits(1)
            out.write(f"#{20 * cycle + 5}\n{d}{of['d']}\n")
            value["d"] = d
            new = {moving: 1}
            if moving == "clk":
                rising = []
                for k in range(clocks):
                    if k == 0 or (k - 1) // 2 in rising:
                        new[f"h{k}"] = 1 - value[f"h{k}"]
                        woken += 1
                        if new[f"h{k}"]:
                            rising.append(k)
                for k in rising:
                    woken += registers
                    for i in range(registers):
                        new[f"r{k}_{i}"] = value[f"r{k}_{i - 1}"] if i else value["d"]
            else:
                woken += 10
                for i in range(10):
                    new[f"s{i}"] = value[f"s{i - 1}"] if i else value["d"]
            out.write(f"#{20 * cycle + 10}\n")
            out.writelines(f"{bit}{of[name]}\n" for name, bit in new.items() if bit != value[name])
            value.update(new)
            out.write(f"#{20 * cycle + 20}\n0{of[moving]}\n")
            value[moving] = 0
            steps += 3
    return steps, woken


def seconds(folder):
    before = resource.getrusage(resource.RUSAGE_CHILDREN)
    done = subprocess.run([program, "score", "-t", "tree", "-i", "tb.dut", "-v", "tree.v", "-vcd", "D", "-o", "B"], cwd=folder, capture_output=True, text=True)
    if done.returncode:
        sys.exit(f"status {done.returncode}: {done.stderr}")
    after = resource.getrusage(resource.RUSAGE_CHILDREN)
    return after.ru_utime + after.ru_stime - before.ru_utime - before.ru_stime


with tempfile.TemporaryDirectory() as folder:
    for clocks, moving in ((1, "clk"), (16, "clk"), (1, "other"), (16, "other")):
        open(f"{folder}/tree.v", "w").write(design(clocks))
        steps, woken = dump(f"{folder}/D", clocks, moving)
        size = os.path.getsize(f"{folder}/D")
        cycles_before, cycles = cycles, 1
        dump(f"{folder}/D", clocks, moving)
        start = seconds(folder)
        cycles = cycles_before
        dump(f"{folder}/D", clocks, moving)
        spent = seconds(folder) - start
        print(f"{clocks} clocks, {moving} rises: {spent:.2f} s, {steps} steps, {size / 1e6:.1f} MB, {woken} blocks woken, {1e6 * spent / steps:.1f} us a step, {1e6 * spent / woken:.2f} us a block")
