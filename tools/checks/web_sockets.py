"""A client of WebSockets for checks, with nothing but the standard library."""
import base64
import json
import os
import socket
import struct


class Closed(Exception):
    """The other side is gone, or gave no socket; then the status is the argument."""


class Socket:
    """A WebSocket of a client."""

    def __init__(self, port, path, host="127.0.0.1", origin=None, timeout=120, address=None):
        self.sock = socket.create_connection((host, port), timeout=timeout)
        key = base64.b64encode(os.urandom(16)).decode()
        lines = [f"GET {path} HTTP/1.1", f"Host: {host}:{port}", "Connection: Upgrade", "Upgrade: websocket",
                 "Sec-WebSocket-Version: 13", f"Sec-WebSocket-Key: {key}"]
        if origin:
            lines.append(f"Origin: {origin}")
        if address:
            lines.append(f"X-Forwarded-For: {address}")
        self.sock.sendall("\r\n".join(lines + ["", ""]).encode())
        self.buffer = b""
        while b"\r\n\r\n" not in self.buffer:
            part = self.sock.recv(4096)
            if not part:
                raise Closed()
            self.buffer += part
        head, self.buffer = self.buffer.split(b"\r\n\r\n", 1)
        self.status = int(head.split()[1])
        if self.status != 101:
            raise Closed(self.status)

    def frame(self, opcode, payload, fin=True):
        """Sends a frame, masked as those of a client are."""
        mask = os.urandom(4)
        size = len(payload)
        head = bytes([(0x80 if fin else 0) | opcode])
        if size < 126:
            head += bytes([0x80 | size])
        elif size < 65536:
            head += bytes([0x80 | 126]) + struct.pack(">H", size)
        else:
            head += bytes([0x80 | 127]) + struct.pack(">Q", size)
        self.sock.sendall(head + mask + bytes(b ^ mask[i % 4] for i, b in enumerate(payload)))

    def send(self, text):
        self.frame(1, text.encode())

    def _take(self, count):
        while len(self.buffer) < count:
            part = self.sock.recv(65536)
            if not part:
                raise Closed()
            self.buffer += part
        taken, self.buffer = self.buffer[:count], self.buffer[count:]
        return taken

    def receive(self):
        """The next text message, as text; pings are answered."""
        whole = b""
        while True:
            first, second = self._take(2)
            size = second & 127
            if size == 126:
                size = struct.unpack(">H", self._take(2))[0]
            elif size == 127:
                size = struct.unpack(">Q", self._take(8))[0]
            payload = self._take(size)
            opcode = first & 15
            if opcode == 9:
                self.frame(10, payload)
            elif opcode == 8:
                raise Closed()
            elif opcode in (0, 1):
                whole += payload
                if first & 128:
                    return whole.decode()

    def message(self):
        """The next message, of JSON."""
        return json.loads(self.receive())

    def close(self):
        self.sock.close()
