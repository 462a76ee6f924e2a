"""Sources with a line that breaks each rule."""

import unittest

from support import Explained


class Sources(Explained):
    def refused(self, source, line, rule, text):
        self.put("a.s", source)
        self.means("asm a.s x.elf", 9, "refused source %d %d" % (line, rule), "a.s, line %d: %s" % (line, text))

    def test_form(self):
        form = "it doesn't have the form of a line. Write it as `name: mnemonic operands # comment`."
        self.refused("ecall\n9a: ecall\n", 2, 1, form)
        self.refused("a : ecall\n", 1, 1, "a blank is before the label's colon. Take it out.")
        operand = " An operand is a register, a number, a label, or as `4(x2)` or `(x2)`."
        self.refused("addi x1, x2, 0x123456789\n", 1, 1, "`0x123456789` has the form of no operand." + operand)
        self.refused("addi x1, x2, 01\n", 1, 1, "`01` has the form of no operand." + operand)
        self.refused("addi x1,, 1\n", 1, 1, "an empty part has the form of no operand." + operand)
        self.refused("ecall\r\n", 1, 1, "it has a carriage return. Lines end with LF alone: `tr -d '\\r'` takes them out.")
        self.refused("ecall # é\n", 1, 1, "it has the byte C3, which isn't printable ASCII. Take it out, also from a comment.")

    def test_mnemonics(self):
        self.refused("slliw x1, x2, 1\n", 1, 2, "`slliw` is no mnemonic. Did you mean `slli`?")
        self.refused("li x1, 1\n", 1, 2, "`li` is a pseudo-instruction. Write `addi x5, x0, V` in its place.")
        self.refused(".quux 1\n", 1, 2, "`.quux` is no mnemonic. There are the instructions of RV32IMA, `.word` and `.zero`, "
                     "and no pseudo-instructions.")

    def test_operands(self):
        for line, text in (
                ("addi x1, x2", "`addi` has 2 operands, but it takes 3. Write it as `addi x1, x2, V`."),
                ("ecall x0", "`ecall` has 1 operand, but it takes 0. Write it as `ecall`."),
                ("add x1, x2, 3", "`3` doesn't fit there. Write it as `add x1, x2, x3`."),
                ("lw x1, x2", "`x2` doesn't fit there. Write it as `lw x1, V(x2)`."),
                ("lr.w x1, 0(x2)", "`0(x2)` doesn't fit there. Write it as `lr.w x1, (x2)`."),
                ("sc.w.rl x1, x2, x3", "`x3` doesn't fit there. Write it as `sc.w.rl x1, x2, (x3)`."),
                ("add a0, x2, x3", "`a0` doesn't fit there. Registers are `x0` to `x31`."),
                ("lw x1, 4(sp)", "`4(sp)` doesn't fit there. Registers are `x0` to `x31`."),
                (".zero a", "`a` doesn't fit there. Write it as `.zero N`.")):
            with self.subTest(line):
                self.refused(line + "\n", 1, 3, text)

    def test_ranges(self):
        for line, text in (
                ("addi x1, x2, 2048", "`2048` is out of range: it has to be -2,048 to 2,047."),
                ("lw x1, -2049(x2)", "`-2049` is out of range: it has to be -2,048 to 2,047."),
                ("slli x1, x2, 32", "`32` is out of range: it has to be 0 to 31."),
                ("lui x1, -1", "`-1` is out of range: it has to be 0 to 1,048,575."),
                ("beq x1, x2, 3", "`3` is out of range: it has to be -4,096 to 4,094 and even."),
                ("jal x1, 1048576", "`1048576` is out of range: it has to be -1,048,576 to 1,048,574 and even."),
                (".word 4294967296", "`4294967296` is out of range: it has to be -2,147,483,648 to 4,294,967,295."),
                (".zero 4194305", "`4194305` is out of range: it has to be 0 to 4,194,304.")):
            with self.subTest(line):
                self.refused(line + "\n", 1, 4, text)

    def test_labels_that_are_too_far(self):
        self.refused("beq x0, x0, a\n.zero 1024\na:\n", 1, 4, "the distance to `a`, 4100, is out of range: it has to be -4,096 "
                     "to 4,094 and even. Bring them closer, or jump in two steps.")
        self.refused(".zero 512\na: addi x1, x0, a\n", 2, 4, "the address of `a`, 2048, is out of range: it has to be -2,048 "
                     "to 2,047. Build it with `lui` and `addi`.")

    def test_labels(self):
        self.refused("a: ecall\n\na: ecall\n", 3, 5, "line 1 has the label `a` too. Rename one of the two.")
        self.refused("loop: jal x0, lop\n", 1, 6, "no line has the label `lop`. Did you mean `loop`?")
        self.refused("jal x0, a\n", 1, 6, "no line has the label `a`. Is it spelled as on its line?")

    def test_too_long(self):
        self.refused(".zero 4194304\necall\n", 2, 7, "up to its end the code has 16,777,220 bytes, over 16,777,216. Shorten "
                     "it: no memory is larger.")

    def test_the_first_rule_of_the_line(self):
        self.refused("a: ecall\na: addi x1, x2, 5000\n", 2, 4, "`5000` is out of range: it has to be -2,048 to 2,047.")


if __name__ == "__main__":
    unittest.main()
