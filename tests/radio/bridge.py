"""A TCP connection carried over station B's radio, byte for byte, so that a LinFBB can stand there. It shares nothing with the host."""
import select
import socket
import struct
import threading
import time

HEAD = struct.Struct("<B3xBxBx10s10sI4x")  # radio, kind, PID, from, to, length
PORTION = 236
ASK = 0.25  # seconds between two questions what is outstanding


class Bridge:
    def __init__(self, agw, call):
        self.agw, self.call, self.partner, self.came = socket.create_connection(("127.0.0.1", agw)), call, "", b""
        self.send("X")
        self.until("X")

    def send(self, kind, data=b""):
        self.agw.sendall(HEAD.pack(0, ord(kind), 0xF0, self.call.encode(), self.partner.encode(), len(data)) + data)

    def frames(self):
        """Those that have come whole."""
        while len(self.came) >= HEAD.size:
            _, kind, _, source, _, count = HEAD.unpack(self.came[:HEAD.size])
            if len(self.came) < HEAD.size + count:
                return
            data, self.came = self.came[HEAD.size:HEAD.size + count], self.came[HEAD.size + count:]
            yield chr(kind), source.split(b"\0")[0].decode(), data

    def hear(self):
        part = self.agw.recv(65536)
        if not part:
            raise EOFError("the TNC is gone")
        self.came += part

    def until(self, kinds):
        while True:
            for frame in self.frames():
                if frame[0] in kinds:
                    return frame
            self.hear()

    def answer(self, port):
        """Waits for a call by radio and carries it to this TCP port."""
        self.partner = self.until("C")[1]
        self.carry(socket.create_connection(("127.0.0.1", port)))

    def dial(self, partner, port):
        """Waits for a TCP connection and carries it to this station."""
        with socket.create_server(("127.0.0.1", port)) as door:
            wire = door.accept()[0]
        self.partner = partner
        self.send("C")
        if self.until("Cd")[0] == "C":
            self.carry(wire)
        wire.close()

    def carry(self, wire):
        """Until either side ends; disconnects when all that it took is acknowledged."""
        closing = False
        while True:
            ready = select.select([self.agw] if closing else [self.agw, wire], [], [], ASK)[0]
            if wire in ready:
                try:
                    part = wire.recv(PORTION)
                except ConnectionResetError:
                    part = b""
                closing = not part
                if part:
                    self.send("D", part)
            if closing:
                self.send("Y")
                time.sleep(ASK)
            if self.agw in ready:
                self.hear()
            for kind, source, data in self.frames():
                if kind == "D" and not closing:
                    wire.sendall(data)
                elif kind == "Y" and closing and not struct.unpack("<I", data[:4])[0]:
                    self.send("d")
                elif kind == "d":
                    wire.close()
                    return

    def beside(self, function, *words):
        thread = threading.Thread(target=function, args=words, daemon=True)
        thread.start()
        return thread
