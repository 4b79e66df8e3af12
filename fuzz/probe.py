#!/usr/bin/env python3
"""Writes the archive's machine code as assembly with a probe on every way that control can take.

  probe.py OBJDUMP OBJECT EDGES >OUT.s

Every instruction of the object stands in the output as the bytes that it is, but for jumps and calls of a function by itself, whose
targets move: they are written by label. A probe counts in one byte of probe_counts, and keeps registers and flags. Probes stand at the front of each function, on both
ways out of a conditional jump and on each entry of a jump table. EDGES gets a line for each probe: function, from, to.
What is called octalmure_.. becomes probed_.., so that the archive itself can be linked beside it.
"""
import re
import subprocess
import sys

# below the red zone; the count passes over 0, so that a way that was taken is seen
PROBE = """\tlea -128(%rsp), %rsp
\tpushfq
\taddb $1, probe_counts+{0}(%rip)
\tadcb $0, probe_counts+{0}(%rip)
\tpopfq
\tlea 128(%rsp), %rsp"""
PUBLIC = {f".text.octalmure_{call}": f"probed_{call}" for call in ("check", "carry", "import", "export", "why")}
INSTRUCTION = re.compile(r"^\s*([0-9a-f]+):\t([0-9a-f ]+?)\s*\t(\S+)\s*(.*)$")
RELOCATION = re.compile(r"^([0-9a-f]+) (R_X86_64_\w+)\s+(\S+?)([+-]0x[0-9a-f]+)?$")
SECTION = re.compile(r"^(?:Disassembly of section|Contents of section|RELOCATION RECORDS FOR) \[?(.+?)\]?:$")
SYMBOL = re.compile(r"^([0-9a-f]+) l\s+(\S+)\s+[0-9a-f]+ (\.LCPI\S+)$")
CONTENTS = re.compile(r"^ [0-9a-f]+ ((?:[0-9a-f]{2,8} ){1,4})")


def by_section(words, line_of):
    """The matches of a dump's lines, section by section."""
    found, section = {}, None
    for line in subprocess.run(words, check=True, capture_output=True, text=True).stdout.splitlines():
        head = SECTION.match(line)
        if head:
            section = head.group(1)
        match = line_of.match(line)
        if match and section:
            found.setdefault(section, []).append(match.groups())
    return found


class Object:
    def __init__(self, objdump, path):
        self.code = by_section([objdump, "-d", "-w", path], INSTRUCTION)
        data = by_section([objdump, "-s", path], CONTENTS)
        self.data = {name: bytes.fromhex("".join(row[0] for row in rows)) for name, rows in data.items() if name.startswith(".rodata")}
        self.relocations = {
            name: {int(at, 16): (kind, symbol, int(plus or "0", 16)) for at, kind, symbol, plus in rows}
            for name, rows in by_section([objdump, "-r", "-w", path], RELOCATION).items()
        }
        table = subprocess.run([objdump, "-t", path], check=True, capture_output=True, text=True).stdout
        self.constants = {m.group(3): (m.group(2), int(m.group(1), 16)) for m in map(SYMBOL.match, table.splitlines()) if m}
        self.labels = {name: f"S{number}" for number, name in enumerate([*self.code, *self.data])}

    def symbol(self, name):
        """A symbol of the object as one of the output; what is no section or constant of it is a function of the C library."""
        if name in self.constants:
            section, at = self.constants[name]
            return f"{self.labels[section]}+{at}"
        return self.labels.get(name, name)


class Writer:
    def __init__(self, source):
        self.source, self.edges, self.detours = source, [], []
        self.tables = {name: set() for name in source.data}

    def probe(self, section, start, end):
        self.edges.append(f"{section} {start} {end}")
        return PROBE.format(len(self.edges) - 1)

    def detour(self, section, start, end, place=None):
        """A label that leads to the end, which is a place of the section if no other is given, by way of a probe."""
        label = f"T{len(self.edges)}"
        self.detours.append(f"{label}:\n{self.probe(section, start, end)}\n\tjmp {place or f'{self.source.labels[section]}_{end}'}")
        return label

    def elsewhere(self, section, at, raw):
        """Where a jump leads that leaves its section: to the front of a function that is called last of all. None if it stays."""
        for place in self.related(section, at, raw):
            _, symbol, plus = self.source.relocations[section][place]
            return f"{self.source.symbol(symbol)}{plus + 4:+}"
        return None

    def function(self, section):
        own = self.source.labels[section]
        if section in PUBLIC:
            print(f"\t.globl {PUBLIC[section]}\n{PUBLIC[section]}:")
        print(f"{own}:\n{self.probe(section, 'call', '0')}")
        for at, raw, name, operand in self.source.code[section]:
            print(f"{own}_{at}:")
            self.instruction(section, at, bytes.fromhex(raw), name, operand)
        print("\n".join(self.detours))
        self.detours = []

    def instruction(self, section, at, raw, name, operands):
        if name == "jmp" and not operands.startswith("*"):
            print(f"\tjmp {self.elsewhere(section, int(at, 16), raw) or f'{self.source.labels[section]}_{operands.split()[0]}'}")
        elif name.startswith("j") and name != "jmp":
            after, away = f"{int(at, 16) + len(raw):x}", self.elsewhere(section, int(at, 16), raw)
            print(f"\t{name} {self.detour(section, at, away or operands.split()[0], away)}\n{self.probe(section, at, after)}")
        elif name == "call" and operands.split()[0] == "0" and not self.related(section, int(at, 16), raw):
            print(f"\tcall {self.source.labels[section]}")
        else:
            self.plain(section, int(at, 16), raw, operands)

    def related(self, section, at, raw):
        """The places inside an instruction that a relocation fills in. A function that calls itself needs none."""
        return [place for place in self.source.relocations.get(section, {}) if at <= place < at + len(raw)]

    def plain(self, section, at, raw, operands):
        """An instruction that is no direct jump. One that names a place (objdump writes <PLACE>) must do so by a relocation."""
        inside = self.related(section, at, raw)
        if len(inside) > 1 or ("<" in operands and not inside):
            sys.exit(f"probe.py: {section}+{at:x}: an instruction of a form that is not known here")
        for place in inside:
            kind, symbol, plus = self.source.relocations[section][place]
            if symbol in self.tables and place + 4 == at + len(raw):
                self.tables[symbol].add(plus + 4)
            print(f"\t.reloc .+{place - at}, {kind}, {self.source.symbol(symbol)}{plus:+}")
        print("\t.byte " + ",".join(map(str, raw)))

    def constants(self, section):
        """A jump table's entry is the distance from the table's front to a place in code; other bytes stand as they are."""
        own, jumps = self.source.labels[section], self.source.relocations.get(section, {})
        print(f"\t.p2align 4\n{own}:")
        at = 0
        while at < len(self.source.data[section]):
            if at in jumps:
                front = max(base for base in self.tables[section] if base <= at)
                _, code, plus = jumps[at]
                print(f"\t.long {self.detour(code, f'table+{at:x}', f'{plus - (at - front):x}')} - ({own}+{front})")
                at += 4
            else:
                print(f"\t.byte {self.source.data[section][at]}")
                at += 1

    def write(self):
        print("\t.text")
        for section in self.source.code:
            self.function(section)
        print("\t.section .rodata")
        for section in self.source.data:
            self.constants(section)
        print("\t.text\n" + "\n".join(self.detours))
        print(f"\t.section .rodata\n\t.globl probe_number\n\t.p2align 2\nprobe_number:\n\t.long {len(self.edges)}")
        print('\t.section .note.GNU-stack,"",@progbits')


def main():
    writer = Writer(Object(sys.argv[1], sys.argv[2]))
    writer.write()
    with open(sys.argv[3], "w", encoding="ascii") as out:
        out.write("".join(edge + "\n" for edge in writer.edges))


main()
