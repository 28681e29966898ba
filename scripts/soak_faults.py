"""Small servers for `scripts/soak --wrong`: a right one, and one for each fault that its load generator has to notice.

    soak_faults.py PORT KIND    a right server that takes memory as KIND of LEAKS says, until a signal ends it
"""
import random
import socket
import socketserver
import struct
import sys
import threading
import time


class Small:
    """A right server of the few commands, with a clock of whole seconds."""

    def __init__(self, fault, some):
        self.fault, self.some, self.items, self.old, self.lock = fault, some, {}, {}, threading.Lock()

    def item(self, key):
        it = self.items.get(key)
        return it if it and int(time.time()) < it[2] else None

    def shown(self, key, it):
        return b"VALUE %s %d %d\r\n%s\r\nEND\r\n" % (key, it[0], len(it[1]), it[1]) if it else b"END\r\n"

    def done(self, words, block):
        """The reply to a command, which is executed."""
        verb, key = words[0], words[2] if words[0] == b"gat" else words[1]
        it = self.item(key)
        if verb == b"set":
            self.old[key] = self.items.get(key)
            self.items[key] = [int(words[2]), block, int(time.time()) + int(words[3])]
            return b"STORED\r\n"
        if verb == b"delete":
            self.old[key] = self.items.pop(key, None)
            return b"DELETED\r\n" if it else b"NOT_FOUND\r\n"
        shown = self.shown(key, it)
        if verb in (b"gat", b"touch") and it:
            it[2] = int(time.time()) + int(words[1] if verb == b"gat" else words[2])
        if verb == b"touch":
            return b"TOUCHED\r\n" if it else b"NOT_FOUND\r\n"
        return shown

    def reply(self, words, block):
        """The bytes of a reply, and whether the connection is closed after them."""
        with self.lock:
            chance, hook = self.fault
            found = hook(self, words, block) if hook and self.some.random() < chance else None
            return found or (self.done(words, block), False)


def of_value(change):
    """A fault in a reply with a value: `change` is given the server, the key and the item."""
    def hook(server, words, block):
        if words[0] not in (b"get", b"gat"):
            return None
        key = words[-1]
        it = server.item(key)
        reply = change(server, key, it) if it else None
        return (reply, False) if reply else None

    return hook


def flipped(server, key, it):
    at = server.some.randrange(len(it[1]))
    return server.shown(key, [it[0], it[1][:at] + bytes([it[1][at] ^ 1 << server.some.randrange(8)]) + it[1][at + 1:]])


def of_another(server, key, it):
    other = server.some.choice(list(server.items.values()))
    return server.shown(key, [it[0], other[1]]) if other[1] != it[1] else None


def of_another_key(server, key, it):
    other = server.some.choice(list(server.items))
    return server.shown(other, it) if other != key else None


def stale(server, key, it):
    return server.shown(key, server.old[key]) if server.old.get(key) else None


def answered(verb, text, is_there=True):
    """The command is answered so, and not executed."""
    def hook(server, words, block):
        key = words[-1] if verb in (b"get", b"gat") else words[1]
        return (text, False) if words[0] == verb and bool(server.item(key)) == is_there else None

    return hook


def moved(by):
    """A set gives the item a time that is moved by so many seconds."""
    def hook(server, words, block):
        if words[0] != b"set":
            return None
        reply = server.done(words, block)
        server.items[words[1]][2] += by
        return reply, False

    return hook


def untouched(server, words, block):
    if words[0] not in (b"gat", b"touch"):
        return None
    it = server.item(words[2] if words[0] == b"gat" else words[1])
    due = it and it[2]
    reply = server.done(words, block)
    if it:
        it[2] = due
    return reply, False


def back_again(server, words, block):
    key = words[-1]
    if words[0] != b"get" or server.item(key) or not server.old.get(key):
        return None
    return server.shown(key, server.old[key]), False


def closed_before(server, words, block):
    return b"", True


def closed_after(server, words, block):
    server.done(words, block)
    return b"", True


def closed_within(server, words, block):
    reply = server.done(words, block)
    return reply[: server.some.randrange(len(reply))], True


def closed_and_late(server, words, block):
    def later():
        with server.lock:
            server.done(words, block)

    timer = threading.Timer(server.some.random() * 2, later)
    timer.daemon = True
    timer.start()
    return b"", True


def out_of_memory(server, words, block):
    if words[0] == b"set":
        if server.some.random() < 0.5:
            server.items.pop(words[1], None)
        return b"SERVER_ERROR out of memory storing object\r\n", False
    return b"SERVER_ERROR out of memory writing get response\r\n", False


def late(server, words, block):
    time.sleep(1.2)
    return server.done(words, block), False


def too_many(server, words, block):
    return b"SERVER_ERROR too many open connections\r\n", True


# A chance for each command, and what is done then.
FAULTS = {
    "a byte of a value is changed": (0.05, of_value(flipped)),
    "the value of another key": (0.05, of_value(of_another)),
    "a reply for another key": (0.05, of_value(of_another_key)),
    "a value without its last byte": (0.05, of_value(lambda s, key, it: s.shown(key, [it[0], it[1][:-1]]))),
    "a value with one more byte": (0.05, of_value(lambda s, key, it: s.shown(key, [it[0], it[1] + b"x"]))),
    "a block with another end": (0.05, of_value(lambda s, key, it: s.shown(key, it)[:-7] + b"xxEND\r\n")),
    "other flags": (0.05, of_value(lambda s, key, it: s.shown(key, [it[0] + 1, it[1]]))),
    "a stale value": (0.05, of_value(stale)),
    "two replies": (0.05, of_value(lambda s, key, it: s.shown(key, it) * 2)),
    "no item although there is one": (0.05, answered(b"get", b"END\r\n")),
    "a set that is not executed": (0.2, lambda s, words, block: (b"STORED\r\n", False) if words[0] == b"set" else None),
    "a set that is denied": (0.2, lambda s, words, block: (b"NOT_STORED\r\n", False) if words[0] == b"set" else None),
    "a delete that is not executed": (1, answered(b"delete", b"DELETED\r\n")),
    "a delete that is denied": (1, answered(b"delete", b"NOT_FOUND\r\n")),
    "a touch that is denied": (0.5, answered(b"touch", b"NOT_FOUND\r\n")),
    "a touch of nothing": (0.5, answered(b"touch", b"TOUCHED\r\n", False)),
    "touches and gats that leave the time": (1, untouched),
    "an item that is gone early": (1, moved(-3)),
    "an item that stays too long": (1, moved(4)),
    "an item that comes back": (0.2, back_again),
}
SLOW = {
    "a reply that is late": (0.005, late),
    "a reply that does not come": (0.002, lambda s, words, block: (b"", False)),
}
RIGHT = {
    "a right server": (0, None),
    "closed before the command is executed": (0.02, closed_before),
    "closed after the command was executed": (0.02, closed_after),
    "closed within the reply": (0.02, closed_within),
    "closed, and executed later": (0.02, closed_and_late),
    "out of memory": (0.05, out_of_memory),
    "too many connections": (0.02, too_many),
}


class Served(socketserver.BaseRequestHandler):
    """One connection to a small server."""

    def handle(self):
        source = self.request.makefile("rb")
        try:
            while line := source.readline():
                words = line.split()
                block = source.read(int(words[4]) + 2)[:-2] if words[0] == b"set" else b""
                reply, is_last = self.server.small.reply(words, block)
                self.request.sendall(reply)
                if is_last:
                    if self.server.small.some.random() < 0.5:
                        self.request.setsockopt(socket.SOL_SOCKET, socket.SO_LINGER, struct.pack("ii", 1, 0))
                    return
        except OSError:
            pass


class Listening(socketserver.ThreadingTCPServer):
    daemon_threads = True
    request_queue_size = 64

    def __init__(self, small, port=0):
        self.small = small
        super().__init__(("127.0.0.1", port), Served)
        threading.Thread(target=self.serve_forever, daemon=True).start()


def started(fault, seed):
    """A small server with this fault, and its port."""
    return Listening(Small(fault, random.Random(seed)))


# What memory does, whether that is flat, and how many MB are taken by this second.
LEAKS = {
    "none": ("is flat", True, lambda second: 0),
    "early": ("grows in the first third alone", True, lambda second: 3 * min(second, 9)),
    "slow": ("grows by 0.5 MB in each minute", False, lambda second: second // 2),
    "late": ("grows at the end alone", False, lambda second: 20 * (second > 26)),
}


def leak(port, kind):
    """A right server, which takes memory and never uses it."""
    kept, begun = [], time.monotonic()
    Listening(Small((0, None), random.Random(1)), port)
    while True:
        if len(kept) < LEAKS[kind][2](int(time.monotonic() - begun)):
            kept.append(random.randbytes(1_000_000))
        else:
            time.sleep(0.05)


if __name__ == "__main__":
    leak(int(sys.argv[1]), sys.argv[2])
