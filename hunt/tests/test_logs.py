"""Logs and images are read as the formats say, and refused by the first field that isn't good."""

import unittest

import support
from lib.image import NotAnImage, read_image
from lib.logs import DMA, ORDER_ONLY, ORDER_SIZE, PICOLOG, Input, Log, Malformed, read_log, write_log


def wrong(data):
    try:
        read_log(data)
    except Malformed as error:
        return error.args
    return None


SMALL = Log(1, 15, ORDER_SIZE, 100, 3, [0, 1, DMA], [2, 0, 0], {(0, 1): 7, (1, 1): 8}, [Input(3, 2, b"ab")], [(2, b"xyz")])
WIDE = Log(2, 63, ORDER_ONLY, 65536, 3, [0, 62, DMA], {(0, 0): 65536, (62, 4): 1}, {(62, 1): 7}, [Input(17, 1, b"")], [])
TURNS = Log(1, 15, PICOLOG, 16, 2, [], {(14, 0): 16}, {}, [], [(0, b""), (1, b"z")])


class Logs(unittest.TestCase):
    def test_written_and_read(self):
        for log in (SMALL, WIDE, TURNS):
            self.assertEqual(read_log(write_log(log)), log)

    def test_examples_are_written_again(self):
        for r in support.recorded():
            data = r.log.read_bytes()
            self.assertEqual(write_log(read_log(data)), data)

    def test_the_documented_bytes(self):
        log = Log(1, 15, ORDER_SIZE, 100, 2, [0, 0], [2, 0], {}, [], [])
        data = bytes.fromhex("444C524E" "01000000" "64000000" "02000000" "02000000" "00" "02000000" "0200" "0000") + bytes(12)
        self.assertEqual((write_log(log), read_log(data)), (data, log))

    def test_cut_anywhere(self):
        for log in (SMALL, WIDE, TURNS):
            data = write_log(log)
            for length in range(len(data)):
                self.assertEqual(wrong(data[:length]), (1, length))
            self.assertEqual(wrong(data + b"\0"), (7, len(data)))

    def test_refused_logs_of_the_examples(self):
        folder = support.TOP / "examples/refused-logs/expected"
        lines = (folder / "stdout").read_text().splitlines()
        said = [tuple(map(int, line.split()[3:5])) for line in lines if line.startswith("refused log 0 ")]
        for n in range(1, 8):
            data = (folder / ("%d.log" % n)).read_bytes()
            self.assertEqual(wrong(data), said[n - 1])

    def test_fields_out_of_range(self):
        data = bytearray(write_log(SMALL))
        for at, value, told in ((4, 3, (3, 4)), (5, 3, (4, 5)), (6, 1, (5, 6)), (8, 15, (5, 8)), (21, 0xFF, (5, 21)),
                                (26, 101, (5, 26))):
            changed = bytearray(data)
            changed[at] = value
            self.assertEqual(wrong(changed), told, at)
        wide = bytearray(write_log(WIDE))
        for at, value, told in ((6, 16, (5, 6)), (20, 63, None), (20, 64, (5, 20)), (20, 200, (5, 20))):
            changed = bytearray(wide)
            changed[at] = value
            self.assertEqual(wrong(changed), told, at)


class Images(unittest.TestCase):
    def test_memory_holds_the_segments(self):
        data = (support.TOP / "examples/three-instructions/a.elf").read_bytes()
        image = read_image(data, 4096)
        self.assertEqual((image.size, image.entry, image.memory), (4096, 0, data[84:] + bytes(4096 - 12)))

    def test_refused(self):
        good = (support.TOP / "examples/three-instructions/a.elf").read_bytes()
        for at, value, rule in ((0, 0, 2), (6, 2, 2), (4, 2, 3), (5, 2, 4), (16, 3, 5), (18, 62, 6), (36, 1, 7), (42, 40, 8),
                                (68, 200, 9), (72, 8, 9), (62, 1, 10), (24, 2, 12), (25, 16, 12), (52, 2, 13)):
            changed = bytearray(good)
            changed[at] = value
            with self.assertRaises(NotAnImage) as raised:
                read_image(bytes(changed), 4096)
            self.assertEqual(raised.exception.args, (rule,), at)
        two = bytearray((support.TOP / "examples/race/race.elf").read_bytes())
        read_image(two, 4096)
        two[52 + 32 + 8 : 52 + 32 + 10] = b"\0\0"  # the second segment's address
        with self.assertRaises(NotAnImage) as raised:
            read_image(two, 4096)
        self.assertEqual(raised.exception.args, (11,))
        with self.assertRaises(NotAnImage) as raised:
            read_image(good[:51], 4096)
        self.assertEqual(raised.exception.args, (1,))


if __name__ == "__main__":
    unittest.main()
