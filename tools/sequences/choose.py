#!/usr/bin/env python3
"""Chooses the sequences of words for which the machine has one operation.

    choose.py LONGEST HOW_MANY FILE..     each FILE holds what count.c printed of one program

An operation costs the loop one turn, whether it does one word or four. So the sequence that saves the most turns is taken
first, then the one that saves the most beside it, and so on. Every program counts the same, however long it runs.
Prints for each sequence the turns that it saves, in thousandths of a program's instructions (the mean over the
programs), and the turns that are left for one instruction; at the end those for each program.
"""
import collections
import heapq
import os
import sys

BRANCHES = {0: "Beq", 1: "Bne", 4: "Blt", 5: "Bge", 6: "Bltu", 7: "Bgeu"}
LOADS = {0: "Lb", 1: "Lh", 2: "Lw", 4: "Lbu", 5: "Lhu"}
STORES = {0: "Sb", 1: "Sh", 2: "Sw"}
IMMEDIATES = {0: "Addi", 1: "Slli", 2: "Slti", 3: "Sltiu", 4: "Xori", 6: "Ori", 7: "Andi"}
REGISTERS = {0: "Add", 1: "Sll", 2: "Slt", 3: "Sltu", 4: "Xor", 5: "Srl", 6: "Or", 7: "And"}
PRODUCTS = ["Mul", "Mulh", "Mulhsu", "Mulhu", "Div", "Divu", "Rem", "Remu"]
# After these no word follows.
ENDS = {"J", "Jal", "Jr", "Jalr"}


def kind(word):
    """The kind of operation that stands for a word (`crates/operations/src/operation.rt`); None where it is left to the plain way."""
    opcode, funct3, rd = word & 127, word >> 12 & 7, word >> 7 & 31
    if opcode == 0x63:
        return BRANCHES.get(funct3)
    if opcode == 0x23:
        return STORES.get(funct3)
    if opcode == 0x6F:
        return "Jal" if rd else "J"
    if opcode == 0x67:
        return "Jalr" if rd else "Jr"
    if not rd:
        return None
    if opcode in (0x37, 0x17):
        return "Li"
    if opcode == 0x03:
        return LOADS.get(funct3)
    other = word >> 30 & 1
    if opcode == 0x13:
        return ("Srai" if other else "Srli") if funct3 == 5 else IMMEDIATES[funct3]
    if opcode == 0x33 and word >> 25 == 1:
        return PRODUCTS[funct3]
    if opcode == 0x33:
        return {0: "Sub", 5: "Sra"}[funct3] if other else REGISTERS[funct3]
    return None


class Program:
    """What one program runs: for each place a kind, and shares of all instructions that it did."""

    def __init__(self, path):
        rows = [tuple(map(int, line.split())) for line in open(path)]
        if not rows:
            sys.exit(f"{path}: counts no words")
        first, count = rows[0][0], rows[-1][0] - rows[0][0] + 1
        runs, self.kinds, self.stays = [0] * count, [None] * count, [1.0] * count
        for number, word, ran, jumped in rows:
            k = number - first
            runs[k], self.kinds[k], self.stays[k] = ran, kind(word), 1 - jumped / ran
        total = sum(runs)
        self.name, self.runs = os.path.basename(path), [ran / total for ran in runs]
        falls = [0.0] + [run * stay for run, stay in zip(self.runs, self.stays)][:-1]
        self.arrivals = [max(run - fall, 0.0) for run, fall in zip(self.runs, falls)]

    def turns(self, sequences, longest):
        """How many turns of the loop an instruction takes, where each place begins the longest sequence that it can."""
        begun, total = self.arrivals + [0.0] * longest, 0.0
        for k, share in enumerate(begun[: len(self.kinds)]):
            share = begun[k]
            total += share
            fits = [n for n in range(longest, 1, -1) if tuple(self.kinds[k : k + n]) in sequences]
            n = fits[0] if fits else 1
            for stay in self.stays[k : k + n]:
                share *= stay
            begun[k + n] += share
        return total


def candidates(programs, longest):
    """The sequences that are run most, by the turns that they might save."""
    saved = collections.Counter()
    for it in programs:
        for k, share in enumerate(it.runs):
            for n in range(2, longest + 1):
                before, last = it.kinds[k + n - 2 : k + n - 1], it.kinds[k + n - 1 : k + n]
                if share < 1e-4 or not last or None in before + last or before[0] in ENDS:
                    break
                share *= it.stays[k + n - 2]
                saved[tuple(it.kinds[k : k + n])] += share * (n - 1)
    return [sequence for sequence, _ in saved.most_common(260)]


def main(longest, how_many, *files):
    programs, longest, chosen = [Program(file) for file in files], int(longest), set()

    def left(sequences):
        return sum(it.turns(sequences, longest) for it in programs) / len(programs)

    now = left(chosen)
    # (what a sequence saves seldom grows, so those that once saved little are looked at last)
    heap = [(-1.0, sequence, -1) for sequence in candidates(programs, longest)]
    for turn in range(min(int(how_many), len(heap))):
        saved, sequence, seen = heapq.heappop(heap)
        while seen != turn:
            heapq.heappush(heap, (left(chosen | {sequence}) - now, sequence, turn))
            saved, sequence, seen = heapq.heappop(heap)
        chosen.add(sequence)
        now += saved
        print(f"{' '.join(sequence):24} {-1000 * saved:4.0f} {now:.3f}", flush=True)
    for it in programs:
        print(f"{it.name}: {it.turns(chosen, longest):.3f}")


if __name__ == "__main__":
    if len(sys.argv) < 4:
        sys.exit(__doc__)
    main(*sys.argv[1:])
