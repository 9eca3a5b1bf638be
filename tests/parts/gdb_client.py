"""A client of scripts/gdb-server for its tests: packets as gdb sends them, byte by byte, and what comes back, each wait with a limit of time."""
import os
import re
import socket
import subprocess

TOP = os.path.dirname(os.path.dirname(os.path.dirname(os.path.realpath(__file__))))
SECONDS = 60


def framed(content):
    content = content.encode("latin-1") if isinstance(content, str) else content
    return b"$" + content + b"#%02x" % (sum(content) % 256)


class Served:
    """A server of an image, and the port at which it waits."""

    def __init__(self, image, *options):
        self.run = subprocess.Popen([f"{TOP}/scripts/gdb-server", *options, "0", image], stdin=subprocess.DEVNULL, stderr=subprocess.PIPE, text=True)
        assert self.run.stderr
        self.says = self.run.stderr
        told = self.says.readline()
        found = re.search(r"port (\d+)", told)
        assert found, told
        self.port = int(found[1])

    def ends(self):
        """The status with which it ends by itself, or None where it does not."""
        try:
            return self.run.wait(timeout=20)
        except subprocess.TimeoutExpired:
            return None

    def __enter__(self):
        return self

    def __exit__(self, *_):
        self.run.kill()
        self.run.wait()
        self.says.close()


class Client:
    """A connection to a server. `answer` sends a packet and takes its reply; what the program writes meanwhile comes into `output`."""

    def __init__(self, port, acknowledges=True):
        self.stream = socket.create_connection(("127.0.0.1", port), timeout=SECONDS)
        self.stream.setsockopt(socket.IPPROTO_TCP, socket.TCP_NODELAY, 1)
        self.buffer, self.output, self.acknowledges = b"", b"", True
        if not acknowledges:
            assert self.answer("QStartNoAckMode") == "OK"
            self.acknowledges = False

    def byte(self):
        if not self.buffer:
            self.buffer = self.stream.recv(65536)
            if not self.buffer:
                raise EOFError("the server has closed the connection")
        first, self.buffer = self.buffer[:1], self.buffer[1:]
        return first

    def reply(self):
        """The next reply; `-` where a packet is asked for again."""
        content = self.packet()
        while content[:1] == "O" and content != "OK":
            self.output += bytes.fromhex(content[1:])
            content = self.packet()
        return content

    def packet(self):
        first = self.byte()
        while first == b"+":
            first = self.byte()
        if first == b"-":
            return "-"
        assert first == b"$", first
        content = b""
        while True:
            byte = self.byte()
            if byte == b"#":
                break
            content += byte
        told = self.byte() + self.byte()
        assert told == b"%02x" % (sum(content) % 256), (content, told)
        if self.acknowledges:
            self.stream.sendall(b"+")
        content = re.sub(b"}(.)", lambda found: bytes([found[1][0] ^ 0x20]), content, flags=re.S)
        return content.decode("latin-1")

    def answer(self, packet):
        self.stream.sendall(framed(packet))
        return self.reply()

    def pc(self, thread):
        assert self.answer(f"Hg{thread:x}") == "OK"
        return int.from_bytes(bytes.fromhex(self.answer("p20")), "little")

    def close(self):
        self.stream.close()
