#!/usr/bin/env python3
"""Times the reader, the printer and the validator of shader texts: bench/shader.py [RUNS]

Builds shader.rt.txt with rt in a temporary folder, runs it on texts that are made here, RUNS times each (25 if left out), and
prints a table of the least processor times, each beside that of a text of a quarter of the size. The status is 1 where a
time is past its limit or a printed text is not the text that was read, and 2 where the program cannot be built or run.
It takes some minutes where the crates have not been proved on this machine before.
"""
import os
import string
import subprocess
import sys
import tempfile

import checkout

MANY_VALUES = 16_384
MANY_BYTES = 4_194_304
MANY_SOURCES = 64_000
DEPTH = 32


def stop(why):
    print(f"{why}\nshader.py: nothing was timed", file=sys.stderr)
    sys.exit(2)


def build(folder):
    """Proves and builds the program, and answers its path."""
    checkout.copy_crates(folder, ("nir_print", "nir_validate"), "bench_shader: nir_validate nir_print nir_text nir_ir nir_host")
    program, _, written = checkout.build(folder, "bench_shader", "shader.rt.txt", ("take",))
    if not os.path.exists(program):
        stop(f"{written}rt did not build the program")
    return program


def one_block(lines):
    return "\n".join(["shader", "inputs [w32x1]", "outputs [w32x1]", "buffers 0", "{", "  block b0 {", *(f"    {line}" for line in lines), "  }", "}", ""])


def sums(count):
    """One block of so many values, each the sum of the two before it."""
    lines = ["%0 = input w32x1 @0", "%1 = const w32x1 (1)"]
    lines += [f"%{at} = iadd w32x1 %{at - 1}, %{at - 2}" for at in range(2, count)]
    return one_block([*lines, f"output @0, %{count - 1}"])


def outputs(size):
    """One block of one value and as many outputs as give a text of almost so many bytes."""
    empty = len(one_block(["%0 = input w32x1 @0"]))
    line = "output @0, %0"
    return one_block(["%0 = input w32x1 @0", *[line] * ((size - empty) // (len(line) + 5))])


class Nested:
    """Ifs and loops inside one another, in each block an addition."""

    def __init__(self, count):
        self.count = count
        self.lines = []
        self.values = 0
        self.blocks = 0

    def put(self, depth, text):
        self.lines.append("  " * depth + text)

    def value(self, depth, text):
        self.put(depth, f"%{self.values} = {text}")
        self.values += 1
        return self.values - 1

    def block(self, depth, last, jump=""):
        self.put(depth, f"block b{self.blocks} {{")
        self.blocks += 1
        if self.values < self.count:
            last = self.value(depth + 1, f"iadd w32x1 %{last}, %0")
        if jump:
            self.put(depth + 1, jump)
        self.put(depth, "}")
        return last

    def nest(self, depth, level, last):
        """A list of a block, an if or a loop, and a block."""
        last = self.block(depth, last)
        if level > 0 and self.values < self.count:
            if level % 2:
                self.put(depth, "if %1 {")
                self.nest(depth + 1, level - 1, last)
                self.put(depth, "} else {")
                self.block(depth + 1, last)
                self.put(depth, "}")
            else:
                self.put(depth, "loop {")
                last = self.nest(depth + 1, level - 1, last)
                self.put(depth + 1, "if %1 {")
                self.block(depth + 2, last, "break")
                self.put(depth + 1, "} else {")
                self.block(depth + 2, last)
                self.put(depth + 1, "}")
                self.block(depth + 1, last)
                self.put(depth, "}")
            last = self.block(depth, last)
        return last

    def text(self):
        self.put(1, f"block b{self.blocks} {{")
        self.blocks += 1
        first = self.value(2, "input w32x1 @0")
        self.value(2, "const w1x1 (1)")
        self.put(1, "}")
        while self.values < self.count:
            self.put(1, "loop {")
            last = self.nest(2, DEPTH - 2, first)
            self.put(2, "if %1 {")
            self.block(3, last, "break")
            self.put(2, "} else {")
            self.block(3, last)
            self.put(2, "}")
            self.block(2, last)
            self.put(1, "}")
            self.block(1, first)
        return "\n".join(["shader", "inputs [w32x1]", "outputs [w32x1]", "buffers 0", "{", *self.lines, "}", ""])


def block_word(at):
    """The name of a block, short so that many fit in a text."""
    letters = string.ascii_letters
    return "".join(letters[at // len(letters) ** place % len(letters)] for place in (3, 2, 1, 0))


def sources(count):
    """A loop that goes back from so many blocks, and in its first block a phi with a source for each and one for the entry."""
    entry, first, end = (block_word(at) for at in range(3))
    blocks = [[block_word(3 * at + place) for place in range(3)] for at in range(1, count + 1)]
    phi = ",".join(f"{block}:%0" for block in [entry, *(back for back, _, _ in blocks)])
    ifs = [f"if%1{{block {back}{{continue}}}}else{{block {other}{{}}}}block {behind}{{{'break' if at + 1 == count else ''}}}" for at, (back, other, behind) in enumerate(blocks)]
    head = f"shader inputs[w32x1]outputs[]buffers 0{{block {entry}{{%0=input w32x1@0 %1=const w1x1(1)}}loop{{block {first}{{%2=phi w32x1[{phi}]}}"
    return "".join([head, *ifs, f"}}block {end}{{}}}}"])


def run_once(words, text):
    """What a program prints, and its processor time in milliseconds."""
    with tempfile.TemporaryFile() as given, tempfile.TemporaryFile() as printed:
        given.write(text)
        given.seek(0)
        process = subprocess.Popen(words, stdin=given, stdout=printed)
        _, status, usage = os.wait4(process.pid, 0)
        process.returncode = os.waitstatus_to_exitcode(status)
        if process.returncode != 0:
            stop(f"{' '.join(words)} ended with status {process.returncode}")
        printed.seek(0)
        return printed.read(), (usage.ru_utime + usage.ru_stime) * 1000


def least_time(program, part, text, runs):
    printed, times = b"", []
    for _ in range(runs):
        printed, time = run_once([program, part], text)
        times.append(time)
    if part == "print" and printed != text:
        print("the printed text is not the text that was read")
        sys.exit(1)
    return min(times)


def main():
    runs = int(sys.argv[1]) if len(sys.argv) > 1 else 25
    cases = (
        ("read and print, one block of values", "print", sums, MANY_VALUES, 50),
        ("read and print, text of 4 MiB", "print", outputs, MANY_BYTES, 200),
        ("validate, ifs and loops 32 deep", "validate", lambda count: Nested(count).text(), MANY_VALUES, 50),
        ("validate, a phi of 64,000 sources", "validate", sources, MANY_SOURCES, 200),
    )
    failed = False
    with tempfile.TemporaryDirectory(prefix="bench_shader_") as folder:
        program = build(folder)
        print("Milliseconds of processor time, the least of the runs. Validating is told without the reading before it.")
        print()
        print(f"{'part':38}  {'a quarter':>9}  {'whole':>9}  {'growth':>6}  {'limit':>6}")
        for name, part, make, size, limit in cases:
            times = []
            for text in (make(size // 4).encode(), make(size).encode()):
                time = least_time(program, part, text, runs)
                if part == "validate":
                    time -= least_time(program, "read", text, runs)
                times.append(time)
            print(f"{name:38}  {times[0]:9.1f}  {times[1]:9.1f}  {times[1] / max(times[0], 0.1):6.1f}  {limit:6}", flush=True)
            failed = failed or times[1] > limit
    sys.exit(1 if failed else 0)


if __name__ == "__main__":
    main()
