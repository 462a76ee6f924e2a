"""gdb's remote protocol, as bytes: packets in and out over a pair of files. `Packets(reader, writer)`."""


class Gone(Exception):
    """The other side has closed."""


INTERRUPT = b"\x03"  # what gdb sends, outside of packets, when it wants the program to stop


class Packets:
    def __init__(self, reader, writer):
        self.reader, self.writer, self.is_acked = reader, writer, True

    def read(self):
        """The next packet's data, or INTERRUPT."""
        while True:
            byte = self._byte()
            if byte == INTERRUPT:
                return INTERRUPT
            if byte != b"$":
                continue  # an acknowledgement
            data, wanted = self._until(b"#"), self._byte() + self._byte()
            if not self.is_acked:
                return _unescaped(data)
            if wanted.lower() == b"%02x" % (sum(data) & 255):
                self._put(b"+")
                return _unescaped(data)
            self._put(b"-")

    def write(self, data):
        data = _escaped(data)
        self._put(b"$%s#%02x" % (data, sum(data) & 255))

    def _byte(self):
        try:
            byte = self.reader.read(1)
        except OSError as error:
            raise Gone from error
        if not byte:
            raise Gone
        return byte

    def _until(self, end):
        out = bytearray()
        while (byte := self._byte()) != end:
            if byte == b"$":  # a packet was broken off
                out.clear()
                continue
            out += byte
        return bytes(out)

    def _put(self, data):
        try:
            self.writer.write(data)
            self.writer.flush()
        except OSError as error:
            raise Gone from error


def _escaped(data):
    return b"".join(b"}" + bytes((b ^ 0x20,)) if b in b"#$}*" else bytes((b,)) for b in data)


def _unescaped(data):
    out, parts = bytearray(), iter(data)
    for b in parts:
        out.append(next(parts, 0) ^ 0x20 if b == 0x7D else b)
    return bytes(out)
