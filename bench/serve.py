"""An engine that serves connections: requests and bytes a second, and what 10,000 hostile connections leave."""
import argparse
import collections
import concurrent.futures
import errno
import os
import random
import socket
import struct
import subprocess
import sys
import tempfile
import time

FIRST = b"SBYJOB1\n"
FAULT = b"c fault: frame\n"
SMALL = b"p cnf 2 4\n1 2 0\n-1 2 0\n1 -2 0\n-1 -2 0\n"
GONE = (errno.ECONNRESET, errno.EPIPE, errno.ENOTCONN)
# Two clauses below a header of 2^27 variables: what they cost is the clauses' cost.
WIDE = b"p cnf 134217728 2\n1 0\n-1 0\n"
KINDS = ["random", "cut", "long", "huge", "wide", "silent", "leaves", "deaf", "slow", "good"]


def request(budget, job):
    return FIRST + struct.pack(">QQ", budget, len(job)) + job


def free_port():
    with socket.socket() as probe:
        probe.bind(("127.0.0.1", 0))
        return probe.getsockname()[1]


def is_heard(port):
    """Whether something listens at the port. A connection to try it would count."""
    with open("/proc/net/tcp") as table:
        return any(row.split()[1].endswith(f":{port:04X}") and row.split()[3] == "0A" for row in list(table)[1:])


class Server:
    def __init__(self, engine, count):
        self.port = free_port()
        self.child = subprocess.Popen([engine, "--serve", f"127.0.0.1:{self.port}", "--count", str(count)], stdin=subprocess.DEVNULL)
        while not is_heard(self.port):
            if self.child.poll() is not None:
                sys.exit(f"the engine ended with {self.child.returncode}")
            time.sleep(0.01)

    def __enter__(self):
        return self

    def __exit__(self, *_):
        self.child.kill()
        self.child.wait()

    def connect(self):
        return socket.create_connection(("127.0.0.1", self.port), 120)

    def memory(self):
        """KiB now, and at most so far."""
        with open(f"/proc/{self.child.pid}/status") as status:
            fields = dict(row.split(":", 1) for row in status)
        return int(fields["VmRSS"].split()[0]), int(fields["VmHWM"].split()[0])

    def seconds(self):
        """Processor seconds of the engine."""
        with open(f"/proc/{self.child.pid}/stat") as stat:
            fields = stat.read().rsplit(")", 1)[1].split()
        return (int(fields[11]) + int(fields[12])) / os.sysconf("SC_CLK_TCK")


def read_whole(link, count):
    got = bytearray()
    while len(got) < count:
        piece = link.recv(min(count - len(got), 1 << 20))
        if not piece:
            return None
        got += piece
    return bytes(got)


def answer(link):
    """The stream of the answer's pieces, or None where its end is missing."""
    stream, last = [], 65536
    while True:
        head = read_whole(link, 4)
        if head is None:
            return None
        size = struct.unpack(">I", head)[0]
        if size == 0:
            return b"".join(stream)
        body = read_whole(link, size)
        if body is None or last != 65536 or size > 65536:
            return None
        stream.append(body)
        last = size


def ask(server, budget, job):
    with server.connect() as link:
        link.sendall(request(budget, job))
        return answer(link)


def by_file(engine, budget, job):
    """What a file of these bytes gives, and the seconds that it takes."""
    with tempfile.TemporaryDirectory() as folder:
        path = os.path.join(folder, "job.cnf")
        with open(path, "wb") as file:
            file.write(job)
        start = time.monotonic()
        with open(os.path.join(folder, "stream"), "wb") as out:
            subprocess.run([engine, "--conflicts", str(budget), path], stdout=out, stdin=subprocess.DEVNULL)
        took = time.monotonic() - start
        with open(out.name, "rb") as file:
            return file.read(), took


def values(count):
    """One unit clause for each variable: the answer is as long as the job."""
    return b"p cnf %d %d\n" % (count, count) + b"".join(b"%d 0\n" % (v if v % 3 else -v) for v in range(1, count + 1))


def pigeons(holes):
    """One pigeon too many: the answer is a long proof."""
    var = lambda p, h: p * holes + h + 1
    clauses = [[var(p, h) for h in range(holes)] for p in range(holes + 1)]
    clauses += [[-var(p, h), -var(q, h)] for h in range(holes) for p in range(holes + 1) for q in range(p)]
    lines = [" ".join(map(str, c)) + " 0" for c in clauses]
    return ("\n".join([f"p cnf {(holes + 1) * holes} {len(clauses)}"] + lines) + "\n").encode()


def hostile(server, kind, rand):
    """One connection of a kind. Whether what came back is what is told of it."""
    whole = request(1 + rand.randrange(9), SMALL)
    with server.connect() as link:
        try:
            if kind == "random":
                link.sendall(rand.randbytes(rand.randrange(1, 300)))
                link.shutdown(socket.SHUT_WR)
                return answer(link) == FAULT
            if kind == "cut":
                link.sendall(whole[: rand.randrange(len(whole))])
                link.shutdown(socket.SHUT_WR)
                return answer(link) == FAULT
            if kind == "long":
                link.sendall(FIRST + struct.pack(">QQ", 1, 1 << 32) + rand.randbytes(2000))
                link.shutdown(socket.SHUT_WR)
                return answer(link) == FAULT
            if kind == "huge":
                link.sendall(FIRST + struct.pack(">QQ", 1, (1 << 32) + 1))
                return answer(link) == FAULT
            if kind == "wide":
                link.sendall(request(1, WIDE))
                return answer(link) == b"0\ns UNSATISFIABLE\n"
            if kind == "leaves":
                link.sendall(whole[: rand.randrange(1, len(whole) + 1)])
            elif kind == "deaf":
                link.setsockopt(socket.SOL_SOCKET, socket.SO_LINGER, struct.pack("ii", 1, 0))
                link.sendall(whole)
                time.sleep(rand.random() / 500)
            elif kind == "slow":
                for at in range(0, len(whole), 20):
                    link.sendall(whole[at : at + 20])
                    time.sleep(rand.random() / 200)
                return answer(link) is not None
            elif kind == "good":
                link.sendall(whole)
                return answer(link) is not None
        except OSError as error:
            # What the engine hasn't read may take its answer away.
            return error.errno in GONE and kind in ("random", "long", "leaves", "deaf")
    return True


def batter(server, count, seed, clients):
    """That many connections by some clients at once. How many weren't as told, by kind."""

    def client(number):
        rand = random.Random(seed + number)
        kinds = [KINDS[turn % len(KINDS)] for turn in range(number, count, clients)]
        return [kind for kind in kinds if not hostile(server, kind, rand)]

    with concurrent.futures.ThreadPoolExecutor(clients) as pool:
        return collections.Counter(kind for wrong in pool.map(client, range(clients)) for kind in wrong)


def measure(server, args):
    """Prints the figures. The exit status: whether an answer was wrong."""
    bad = False

    wanted, _ = by_file(args.engine, 100, SMALL)
    start, cpu = time.monotonic(), server.seconds()
    same = all(ask(server, 100, SMALL) == wanted for _ in range(args.requests))
    took, cpu = time.monotonic() - start, server.seconds() - cpu
    bad |= not same
    print(f"{args.requests} requests of {len(SMALL)} bytes: {args.requests / took:.0f} a second, {cpu / args.requests * 1e6:.0f} us of the engine each; the file's stream: {same}")

    for name, job in [("values", values(args.variables)), ("pigeons", pigeons(args.holes))]:
        wanted, alone = by_file(args.engine, 10**9, job)
        start = time.monotonic()
        stream = ask(server, 10**9, job)
        took = time.monotonic() - start
        same = stream == wanted
        bad |= not same
        print(f"{name}: job {len(job)} bytes, stream {len(wanted)} bytes: {took:.2f} s, {(len(job) + len(wanted)) / took / 1e6:.1f} MB/s; as a file {alone:.2f} s; the file's stream: {same}")

    before = server.memory()
    start = time.monotonic()
    wrong = batter(server, args.hostile, args.seed, args.clients)
    took, after = time.monotonic() - start, server.memory()
    wanted, _ = by_file(args.engine, 100, SMALL)
    same = ask(server, 100, SMALL) == wanted
    bad |= bool(wrong) or not same
    print(f"{args.hostile} hostile connections: {took:.1f} s; memory {before[0]} KiB before, {after[0]} after, {after[1]} at most so far; not as told: {dict(wrong) or 'none'}; a request after them: {same}")

    status = server.child.wait(60)
    print(f"exit status {status}")
    return 1 if bad or status != 0 else 0


def main():
    parser = argparse.ArgumentParser(description=__doc__)
    parser.add_argument("--engine", required=True)
    parser.add_argument("--requests", type=int, default=5000)
    parser.add_argument("--variables", type=int, default=1_000_000)
    parser.add_argument("--holes", type=int, default=8)
    parser.add_argument("--hostile", type=int, default=10_000)
    parser.add_argument("--clients", type=int, default=4)
    parser.add_argument("--seed", type=int, default=1)
    args = parser.parse_args()
    with Server(args.engine, args.requests + 2 + args.hostile + 1) as server:
        return measure(server, args)


if __name__ == "__main__":
    sys.exit(main())
