"""Images that break each rule."""

import unittest

from support import CODE, IMAGE, Explained, elf_header, program_header

RISCV32, LINKED = " Compile it for riscv32.", " Is it the linked program?"
DAMAGED = " The file is cut or damaged: link it again."


def with_bytes(at, data):
    return IMAGE[:at] + data + IMAGE[at + len(data) :]


class Images(Explained):
    def refused(self, image, rule, text):
        self.put("a.elf", image)
        self.means("walk a.elf 4096 a.log", 4, "refused image 0 %d" % rule, "a.elf" + text)

    def test_length(self):
        self.refused(IMAGE[:51], 1, ": it has 51 bytes, and the header of an ELF file has 52. It begins like an ELF file: is "
                     "it the file that you mean?")
        self.refused(b"", 1, ": it has 0 bytes, and the header of an ELF file has 52. It is empty: is it the file that you mean?")
        self.refused(b"\x90", 1, ": it has 1 byte, and the header of an ELF file has 52." + LINKED)

    def test_magic(self):
        no_elf = ", byte 0: it doesn't begin with 7F 45 4C 46, so it isn't an ELF file."
        self.refused(with_bytes(0, b"\0"), 2, no_elf + LINKED)
        self.refused(with_bytes(0, b"DLRN"), 2, no_elf + " It begins like a log: is it the file that you mean?")
        self.refused(b"int main(void) { return 0; }\n" * 3, 2, no_elf + " It is a text: a source has to be assembled or "
                     "compiled first.")
        self.refused(with_bytes(6, b"\2"), 2, ", byte 6: the version of ELF isn't 1. The file is damaged: link it again.")
        self.refused(with_bytes(20, b"\2"), 2, ", byte 20: the version of ELF isn't 1. The file is damaged: link it again.")

    def test_another_machine(self):
        self.refused(with_bytes(4, b"\2"), 3, ", byte 4: it is of 64 bits." + RISCV32)
        self.refused(with_bytes(5, b"\2"), 4, ", byte 5: its numbers have their high byte first." + RISCV32)
        self.refused(with_bytes(18, b"\x3e"), 6, ", byte 18: it is for x86-64, and not for RISC-V." + RISCV32)
        self.refused(with_bytes(18, b"\1\1"), 6, ", byte 18: it is for machine 257, and not for RISC-V." + RISCV32)

    def test_not_a_program(self):
        link = " Link it, with -static and without -pie."
        self.refused(with_bytes(16, b"\1"), 5, ", byte 16: it is an object file, which isn't linked." + link)
        self.refused(with_bytes(16, b"\3"), 5, ", byte 16: it is a shared or a position-independent program." + link)

    def test_extensions(self):
        compiled, advice = ", byte 36: it is compiled for a processor with ", " Compile it with -march=rv32ima -mabi=ilp32."
        self.refused(with_bytes(36, b"\1"), 7, compiled + "compressed instructions." + advice)
        self.refused(with_bytes(36, b"\5"), 7, compiled + "compressed instructions and floating point in calls." + advice)
        self.refused(with_bytes(36, b"\x08"), 7, compiled + "16 registers (RV32E)." + advice)

    def test_program_headers(self):
        self.refused(with_bytes(42, b"\x38"), 8, ", byte 42: its program headers have 56 bytes each, and not 32." + DAMAGED)
        self.refused(IMAGE[:83], 8, ", byte 28: its program headers end at 84, but the file has 83 bytes." + DAMAGED)

    def test_segments_in_the_file(self):
        self.refused(IMAGE[:95], 9, ": the bytes of segment 0 end at 96, but the file has 95 bytes." + DAMAGED)
        self.refused(elf_header() + program_header(length=8) + CODE, 9,
                     ": segment 0 has 12 bytes in the file, and only 8 in memory." + DAMAGED)

    def test_segments_in_memory(self):
        self.refused(elf_header() + program_header(at=4088, length=12) + CODE, 10, ": segment 0 ends at 00001004, past the "
                     "memory's end at 00001000. A memory of 8192 bytes has room for all segments; the stack and heap need more.")
        self.refused(elf_header() + program_header(at=0xFFFFFFFC) + CODE, 10, ": segment 0 ends at 100000008, past the "
                     "memory's end at 00001000. No memory is larger than 16,777,216 bytes, so link the program to lower "
                     "addresses.")

    def test_segments_that_overlap(self):
        headers = program_header(at=16, offset=148) + program_header(kind=4) + program_header(at=8, offset=148)
        self.refused(elf_header(many=3) + headers + CODE, 11,
                     ": segments 0 and 2 share the address 00000010. Mend the linker's script.")

    def test_entry(self):
        self.refused(elf_header(entry=2) + program_header() + CODE, 12, ": the entry, 00000002, isn't a multiple of 4. Set it "
                     "to the address of an instruction.")
        self.refused(elf_header(entry=4096) + program_header() + CODE, 12, ": the entry, 00001000, isn't in the memory, which "
                     "ends at 00001000. Raise the memory, or set the entry.")

    def test_nothing_to_load(self):
        self.refused(elf_header() + program_header(kind=0) + CODE, 13, ": no segment is loaded: it has 1 program header, and "
                     "none of type 1. Is it the linked program, and not empty?")

    def test_each_command(self):
        self.put("a.elf", with_bytes(5, b"\2"))
        text = "a.elf, byte 5: its numbers have their high byte first." + RISCV32
        for words in ("interval a.elf 4096 a.log 1 0 1", "watch a.elf 4096 a.log 0", "who a.elf 4096 a.log 0 1",
                      "when a.elf 4096 a.log 0 0", "strata a.elf 4096 a.log x", "run plan.toml"):
            self.means(words, 4, "refused image 0 4", text)

    def test_the_lowest_sphere_first(self):
        with open("plan.toml", "a") as plan:
            plan.write('[[sphere]]\nimage = "b.elf"\nmemory = 4096\nrole = "plain"\n')
        self.put("b.elf", with_bytes(5, b"\2"))
        self.put("s.txt", "x\n")
        self.means("run plan.toml", 4, "refused image 1 4", "b.elf, byte 5: its numbers have their high byte first." + RISCV32)


if __name__ == "__main__":
    unittest.main()
