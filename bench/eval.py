#!/usr/bin/env python3
"""Times `eval` of the crate op_eval against native Rust, opcode by opcode: bench/eval.py [RUNS]

Builds eval.rt.txt with rt and eval.rs with rustc in a temporary folder, runs each loop over 2^24 pairs of 32-bit words
RUNS times (25 if left out), compares the checksums, and prints a table of the least processor times. The status is 1
where eval at an opcode written out takes more than 3 times the native time or checksums differ, and 2 where a program
cannot be built or run. It takes about a minute, and some minutes where op_eval has not been proved on this machine before.
"""
import os
import subprocess
import sys
import tempfile

import checkout

OPCODES = ("iadd", "imul", "idiv", "urol", "bit_count")
LIMIT = 3.0
# The processor that Rattle builds for. It counts bits in one instruction, which plain rustc -O may not use.
CPU = "x86-64-v2"


def stop(why):
    print(f"{why}\neval.py: nothing was compared", file=sys.stderr)
    sys.exit(2)


def build_eval(folder):
    """Proves and builds the program over `eval`, and answers its path."""
    checkout.copy_crates(folder, ("op_eval",), "bench_eval: op_eval nir_ops")
    program, status, written = checkout.build(folder, "bench_eval", "eval.rt.txt", ("fixed", "iadd"))
    if status != 0:
        stop(f"{written}rt did not build the program")
    return program


def build_native(folder, name, flags):
    program = f"{folder}/{name}"
    if subprocess.run(["rustc", "-O", *flags, "-o", program, f"{checkout.HERE}/eval.rs"]).returncode != 0:
        stop("rustc did not build the program")
    return program


def run_once(words):
    """What a program prints, and its processor time in milliseconds."""
    with tempfile.TemporaryFile() as printed:
        process = subprocess.Popen(words, stdout=printed, stdin=subprocess.DEVNULL)
        _, status, usage = os.wait4(process.pid, 0)
        process.returncode = os.waitstatus_to_exitcode(status)
        if process.returncode != 0:
            stop(f"{' '.join(words)} ended with status {process.returncode}")
        printed.seek(0)
        return printed.read(), (usage.ru_utime + usage.ru_stime) * 1000


def least_times(programs, runs):
    """The least time of each program. They take turns, so that a busy machine slows all alike."""
    sums = set()
    times = [[] for _ in programs]
    for _ in range(runs):
        for words, taken in zip(programs, times):
            printed, time = run_once(words)
            sums.add(printed)
            taken.append(time)
    return sums, [min(taken) for taken in times]


def main():
    runs = int(sys.argv[1]) if len(sys.argv) > 1 else 25
    failed = False
    with tempfile.TemporaryDirectory(prefix="bench_eval_") as folder:
        evaluated = build_eval(folder)
        plain = build_native(folder, "native", [])
        same_cpu = build_native(folder, "native_same_cpu", ["-C", f"target-cpu={CPU}"])
        print("fixed: the opcode is written out in the loop of eval; any: the loop of eval takes the opcode as a value.")
        print(f"native: rustc -O; native v2: rustc -O -C target-cpu={CPU}, for which eval is built too.")
        print("Milliseconds of processor time. Each ratio is over the lesser native time.")
        print()
        head = ("opcode", "eval fixed", "eval any", "native", "native v2", "ratio fixed", "ratio any")
        print("  ".join(f"{word:>11}" for word in head))
        for opcode in OPCODES:
            programs = [[evaluated, "fixed", opcode], [evaluated, "any", opcode], [plain, opcode], [same_cpu, opcode]]
            sums, times = least_times(programs, runs)
            native = min(times[2:])
            ratios = [time / native for time in times[:2]]
            cells = [opcode, *(f"{time:.1f}" for time in times), *(f"{ratio:.2f}" for ratio in ratios)]
            print("  ".join(f"{cell:>11}" for cell in cells), flush=True)
            if len(sums) != 1:
                print(f"{opcode}: the checksums differ: {sorted(sums)}")
                failed = True
            if ratios[0] > LIMIT:
                print(f"{opcode}: eval takes more than {LIMIT:.0f} times the native time")
                failed = True
    sys.exit(1 if failed else 0)


main()
