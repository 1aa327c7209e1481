"""A bad link between two network namespaces: packets are late, lost, and held back to a rate, and the link can be
cut.

It is what `tc netem` does, for kernels without it: two devices of the kind TUN, one in each namespace, and this
process between them. The far namespace has a relay from a port of TCP to a service's socket. `words` is a command
that leads there from the near one; it stands in for `ssh`, whose words it ignores. Needs root, `ip` and /dev/net/tun;
`missing` tells what is not there."""
import contextlib
import fcntl
import heapq
import os
import random
import select
import shutil
import socket
import struct
import subprocess
import sys
import threading
import time
from pathlib import Path

TUN = "/dev/net/tun"
TUNSETIFF, IFF_TUN, IFF_NO_PI = 0x400454CA, 1, 0x1000
PORT = 7000
MOST_QUEUED = 0.4  # seconds of the rate, as a router's buffer holds


def missing():
    """What this link needs and is not there, or None."""
    if os.geteuid() != 0:
        return "root"
    if shutil.which("ip") is None:
        return "iproute2"
    try:
        os.close(os.open(TUN, os.O_RDWR))
    except OSError:
        return TUN
    tried = subprocess.run(["ip", "netns", "add", f"zc-try-{os.getpid()}"], stderr=subprocess.DEVNULL)
    if tried.returncode:
        return "network namespaces"
    subprocess.run(["ip", "netns", "del", f"zc-try-{os.getpid()}"], check=True)
    return None


def ip(*words):
    subprocess.run(["ip", *words], check=True)


def tun(name):
    device = os.open(TUN, os.O_RDWR | os.O_NONBLOCK)
    fcntl.ioctl(device, TUNSETIFF, struct.pack("16sH", name.encode(), IFF_TUN | IFF_NO_PI))
    return device


class Way:
    """The packets that are on their way to one side."""

    def __init__(self, device, link):
        self.device, self.link, self.packets, self.free, self.count = device, link, [], 0.0, 0

    def take(self, packet, now):
        link = self.link
        self.free = max(self.free, now)
        if link.is_cut or link.chance.random() < link.loss or (link.rate and self.free > now + MOST_QUEUED):
            return
        if link.rate:
            self.free += len(packet) * 8 / link.rate
        self.count += 1
        link.bytes += len(packet)
        heapq.heappush(self.packets, (self.free + link.delay, self.count, packet))

    def give(self, now):
        while self.packets and self.packets[0][0] <= now:
            with contextlib.suppress(OSError):
                os.write(self.device, heapq.heappop(self.packets)[2])


class BadLink:
    def __init__(self, number, service, delay=0.15, loss=0.05, rate=None, seed=1):
        """`delay` is that of one way, in seconds; `rate` is in bits a second."""
        self.delay, self.loss, self.rate, self.chance = delay, loss, rate, random.Random(seed)
        self.is_cut, self.bytes, self.ends = False, 0, False
        self.spaces = [f"zc{os.getpid()}-{number}{side}" for side in "nf"]
        self.net = f"10.{77 + number // 250}.{number % 250}"
        self.devices, self.relay, self.service = [], None, service
        self._make()
        self.thread = threading.Thread(target=self._run, daemon=True)
        self.thread.start()

    def _make(self):
        for at, space in enumerate(self.spaces):
            ip("netns", "add", space)
            name = f"zt{os.getpid() % 100000}{'nf'[at]}"
            self.devices.append(tun(name))
            ip("link", "set", name, "netns", space)
            ip("-n", space, "addr", "add", f"{self.net}.{at + 1}/24", "dev", name)
            ip("-n", space, "link", "set", name, "up")
            ip("-n", space, "link", "set", "lo", "up")
        words = [sys.executable, __file__, "relay", f"{self.net}.2", self.service]
        self.relay = subprocess.Popen(["ip", "netns", "exec", self.spaces[1], *words], stderr=subprocess.DEVNULL)

    @property
    def words(self):
        return f"ip netns exec {self.spaces[0]} {sys.executable} {__file__} dial {self.net}.2"

    def _run(self):
        ways = [Way(self.devices[1], self), Way(self.devices[0], self)]
        while not self.ends:
            due = min([it.packets[0][0] for it in ways if it.packets], default=time.monotonic() + 0.05)
            ready, _, _ = select.select(self.devices, [], [], min(0.05, max(0.0, due - time.monotonic())))
            now = time.monotonic()
            for device, way in zip(self.devices, ways):
                while device in ready:
                    try:
                        way.take(os.read(device, 4096), now)
                    except OSError:
                        break
            for way in ways:
                way.give(time.monotonic())

    def close(self):
        self.ends = True
        self.thread.join()
        self.relay.kill()
        self.relay.wait()
        for it in self.devices:
            os.close(it)
        for it in self.spaces:
            subprocess.run(["ip", "netns", "del", it])


class PoorProxy:
    """What stands in for the link where it cannot be made: each connection is late by a proxy, some pieces by a
    second more, as if TCP had sent them again, and a cut closes all."""

    def __init__(self, number, service, delay=0.15, loss=0.05, rate=None, seed=1):
        self.delay, self.loss, self.chance, self.service = delay, loss, random.Random(seed), service
        self.bytes, self.is_closed, self._is_cut, self.open = 0, False, False, set()
        self.path = f"{service}.far"
        self.listener = socket.socket(socket.AF_UNIX)
        self.listener.bind(self.path)
        self.listener.listen()
        threading.Thread(target=self._accept, daemon=True).start()

    @property
    def words(self):
        return f"{sys.executable} {__file__} dial {self.path}"

    @property
    def is_cut(self):
        return self._is_cut

    @is_cut.setter
    def is_cut(self, value):
        self._is_cut = value
        for it in list(self.open) if value else []:
            with contextlib.suppress(OSError):
                it.shutdown(socket.SHUT_RDWR)

    def _accept(self):
        while not self.is_closed:
            try:
                near, _ = self.listener.accept()
                far = socket.socket(socket.AF_UNIX)
                if self.is_cut:
                    raise OSError
                far.connect(self.service)
            except OSError:
                if not self.is_closed:
                    near.close()
                continue
            self.open |= {near, far}
            for pair in (near, far), (far, near):
                threading.Thread(target=self._carry, args=pair, daemon=True).start()

    def _carry(self, here, there):
        with contextlib.suppress(OSError):
            while came := here.recv(16384):
                time.sleep(self.delay + (1 if self.chance.random() < self.loss else 0))
                self.bytes += len(came)
                there.sendall(came)
        for it in (here, there):
            with contextlib.suppress(OSError):
                it.shutdown(socket.SHUT_RDWR)
        self.open -= {here, there}

    def close(self):
        self.is_closed = True
        self.listener.close()
        os.unlink(self.path)


def keep_alive(connection):
    """The other end counts as gone after some ten seconds of silence."""
    connection.setsockopt(socket.SOL_SOCKET, socket.SO_KEEPALIVE, 1)
    for name, value in (socket.TCP_KEEPIDLE, 5), (socket.TCP_KEEPINTVL, 2), (socket.TCP_KEEPCNT, 4):
        connection.setsockopt(socket.IPPROTO_TCP, name, value)
    connection.setsockopt(socket.IPPROTO_TCP, socket.TCP_USER_TIMEOUT, 15000)


def shuttle(one, other_in, other_out):
    """Passes bytes on between a socket and two descriptors, until either end is done."""

    def back():
        with contextlib.suppress(OSError):
            while came := one.recv(65536):
                view = memoryview(came)
                while view:
                    view = view[os.write(other_out, view) :]
        os._exit(0)

    threading.Thread(target=back, daemon=True).start()
    with contextlib.suppress(OSError):
        while came := os.read(other_in, 65536):
            one.sendall(came)
        one.shutdown(socket.SHUT_WR)
        time.sleep(20)
    os._exit(1)


def dial(place):
    if "/" in place:
        connection = socket.socket(socket.AF_UNIX)
        connection.connect(place)
    else:
        connection = socket.create_connection((place, PORT), 15)
        connection.settimeout(None)
        keep_alive(connection)
    shuttle(connection, 0, 1)


def relay(place, service):
    """Takes connections, each in a process of its own."""
    listener = socket.create_server((place, PORT), backlog=64)
    while True:
        connection, _ = listener.accept()
        if os.fork() == 0:
            if os.fork() == 0:
                keep_alive(connection)
                far = socket.socket(socket.AF_UNIX)
                far.connect(service)
                shuttle(connection, far.fileno(), far.fileno())
            os._exit(0)
        os.wait()
        connection.close()


if __name__ == "__main__":
    try:
        dial(sys.argv[2]) if sys.argv[1] == "dial" else relay(*sys.argv[2:4])
    except OSError as fault:
        sys.exit(f"{Path(__file__).name}: {fault}")
