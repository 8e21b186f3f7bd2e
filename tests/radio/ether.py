"""The air between two stations, in real time: reads each one's audio from a FIFO, adds seeded white noise and feeds it
to the other by UDP.  ether.py FOLDER RMS SEED; RMS 1.0 is the amplitude of the signal.  While FOLDER/mute_a (mute_b)
exists, nothing that station sends is heard.  A station that sends hears nothing (half duplex).  16 bit mono, 44100
samples per second."""
import array
import fcntl
import os
import random
import socket
import struct
import sys
import time

RATE, TICK = 44100, 0.02
SET_FLAGS, UP = 0x8914, 1
COUNT = int(RATE * TICK)


class Way:
    def __init__(self, folder, name, port, shift):
        self.fd = os.open(os.path.join(folder, name + '.fifo'), os.O_RDWR | os.O_NONBLOCK)
        self.mute = os.path.join(folder, 'mute_' + name)
        self.other, self.sending = None, False
        self.muted, self.waiting, self.to, self.at = False, bytearray(), ('127.0.0.1', port), shift

    def step(self, noise, look, out):
        try:
            while True:
                part = os.read(self.fd, 65536)
                self.waiting += part
                if len(part) < 65536:
                    break
        except BlockingIOError:
            pass
        self.sending = bool(self.waiting)
        sound = array.array('h', bytes(self.waiting[:2 * COUNT]).ljust(2 * COUNT, b'\0'))
        del self.waiting[:2 * COUNT]                      # a muted station's time passes as well
        if look:
            self.muted = os.path.exists(self.mute)
        if self.muted or self.other.sending:
            sound = array.array('h', bytes(2 * COUNT))
        if noise:
            back = noise[self.at:self.at + COUNT]
            self.at = (self.at + COUNT) % len(noise)
            sound = array.array('h', [(s >> 2) + n for s, n in zip(sound, back)])
        else:
            sound = array.array('h', [s >> 2 for s in sound])
        out.sendto(sound.tobytes(), self.to)


def raise_loopback():
    """In a new network namespace it is down."""
    with socket.socket() as s:
        fcntl.ioctl(s, SET_FLAGS, struct.pack("16sh14x", b"lo", UP))


def main():
    raise_loopback()
    folder, rms, seed = sys.argv[1], float(sys.argv[2]), int(sys.argv[3])
    draw = random.Random(seed)
    noise = array.array('h', (max(-24500, min(24500, int(draw.gauss(0, rms * 8192)))) for _ in range(COUNT * 349))) if rms else None
    out = socket.socket(socket.AF_INET, socket.SOCK_DGRAM)
    ways = [Way(folder, 'a', 7402, 0), Way(folder, 'b', 7401, COUNT * 150)]
    ways[0].other, ways[1].other = ways[1], ways[0]
    open(os.path.join(folder, 'ether.ready'), 'w').close()
    start, tick = time.monotonic(), 0
    while True:
        rest = start + tick * TICK - time.monotonic()
        if rest > 0:
            time.sleep(rest)
        for way in ways:
            way.step(noise, tick % 5 == 0, out)
        tick += 1


main()
