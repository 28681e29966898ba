"""A daemon as its clients see it: the process, its connections, and its status port."""
import os
import re
import resource
import socket
import subprocess
import threading
import time
import urllib.request

PATIENCE = 30  # seconds
RESET = b"\1\0\0\0\0\0\0\0"  # for SO_LINGER: to close is to reset


class Silent(Exception):
    """A daemon that does not say where it listens, and the status with which it ended."""

    def __init__(self, err, status):
        super().__init__(f"it does not listen: {err!r}")
        self.status = status


class Daemon:
    """A daemon on free ports, which is ended by a signal. `env` has further variables of its environment: to set them in
    this process would also give them to daemons that other threads start, or break their start."""

    def __init__(self, program, *words, listeners=1, status=False, files=None, env=None):
        self.err = b""
        self.ports = []
        given = list(words)
        for _ in range(listeners):
            given += ["--listen", "127.0.0.1:0"]
        self.status = None
        if status:
            with socket.socket() as taken:
                taken.bind(("127.0.0.1", 0))
                self.status = taken.getsockname()[1]
            given += ["--status", f"127.0.0.1:{self.status}"]
        limit = ["prlimit", f"--nofile={files}"] if files else []
        self.process = subprocess.Popen([*limit, program, *given], env={**os.environ, **(env or {})}, stdin=subprocess.DEVNULL,
                                        stdout=subprocess.PIPE, stderr=subprocess.PIPE)
        self.reader = threading.Thread(target=self.read, daemon=True)
        self.reader.start()
        until = time.time() + PATIENCE
        while len(self.ports) < listeners and time.time() < until and self.process.poll() is None:
            self.ports = [int(port) for port in re.findall(rb"listening on 127\.0\.0\.1:(\d+)\n", self.err)]
            time.sleep(0.02)
        if len(self.ports) < listeners:
            self.__exit__()
            raise Silent(self.err, self.process.returncode)

    def read(self):
        for line in self.process.stderr:
            self.err += line

    def resident(self):
        """Its resident memory in KiB."""
        with open(f"/proc/{self.process.pid}/statm") as file:
            return int(file.read().split()[1]) * resource.getpagesize() // 1024

    def __enter__(self):
        return self

    def __exit__(self, *_):
        self.process.terminate()
        try:
            self.process.wait(PATIENCE)
        except subprocess.TimeoutExpired:
            self.process.kill()
            self.process.wait()
        self.reader.join(PATIENCE)
        self.process.stdout.close()
        self.process.stderr.close()


def connect_to_file(path):
    client = socket.socket(socket.AF_UNIX)
    client.settimeout(PATIENCE)
    client.connect(path)
    return client


def connect(port):
    return socket.create_connection(("127.0.0.1", port), timeout=PATIENCE)


def hear(client, wanted):
    """The next bytes, as many as are wanted, or those before the end."""
    got = b""
    while len(got) < len(wanted):
        piece = client.recv(len(wanted) - len(got))
        if not piece:
            break
        got += piece
    return got


def talk(client, text, wanted):
    client.sendall(text)
    return hear(client, wanted)


def run(program, *words):
    done = subprocess.run([program, *words], stdin=subprocess.DEVNULL, capture_output=True, timeout=PATIENCE)
    return done.returncode, done.stdout.decode(), done.stderr.decode()


def comes(is_so):
    """Whether this is so within PATIENCE seconds."""
    end = time.time() + PATIENCE
    while not is_so():
        if time.time() > end:
            return False
        time.sleep(0.1)
    return True


def stays(client, seconds):
    """Whether the connection is open for so long, on which nothing is sent and nothing comes."""
    client.settimeout(seconds)
    try:
        return client.recv(1) != b""
    except TimeoutError:
        return True
    finally:
        client.settimeout(PATIENCE)


def fetch(port, path):
    with urllib.request.urlopen(f"http://127.0.0.1:{port}{path}", timeout=PATIENCE) as answer:
        return answer.status, answer.headers.get_content_type(), answer.read().decode()


def churn_of(port, until, period, opened, served, at):
    """Opens a connection, uses it once and closes it, one in each period (seconds)."""
    due = time.time()
    while time.time() < until:
        due += period
        opened[at] += 1
        try:
            client = connect(port)
            # No socket is left waiting for its last packets, so ports do not run out.
            client.setsockopt(socket.SOL_SOCKET, socket.SO_LINGER, RESET)
            served[at] += talk(client, b"get a\r\n", b"END\r\n") == b"END\r\n"
            client.close()
        except OSError:
            pass
        time.sleep(max(0, due - time.time()))


def churn(port, seconds, a_second):
    """Several processes, since one of Python does not open so many. How many connections were opened, and served."""
    makers = []
    for _ in range(4):
        reading, writing = os.pipe()
        child = os.fork()
        if child == 0:
            opened, served = [0] * 4, [0] * 4
            until = time.time() + seconds
            threads = [threading.Thread(target=churn_of, args=(port, until, 16 / a_second, opened, served, at))
                       for at in range(4)]
            for thread in threads:
                thread.start()
            for thread in threads:
                thread.join()
            os.write(writing, f"{sum(opened)} {sum(served)}".encode())
            os._exit(0)
        os.close(writing)
        makers.append((child, reading))
    opened = served = 0
    for child, reading in makers:
        numbers = (os.read(reading, 64) or b"1 0").split()
        opened, served = opened + int(numbers[0]), served + int(numbers[1])
        os.close(reading)
        os.waitpid(child, 0)
    return opened, served
