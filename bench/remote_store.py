#!/usr/bin/env python3
"""A store in another host's memory: remote_store.py PROGRAM [PART..]

It makes two network namespaces with a wire between them. In the one an `sshd` serves a tmpfs, which stands for another machine's memory; in the other `sshfs` makes
a folder of it, and PROGRAM runs with `--store` over that. A relay holds each byte back for half a millisecond either way, so that a call and its answer take a
millisecond more. (`tc netem` would do as well, and is left out of many kernels.)
    speed   a list and a scan, a quarter local, beside 0, 1, 4 and 16 evacuators and fetchers, and the scan with pieces of 256 cells
    cut     the connection is closed in the middle of a run, or its wire is pulled out, with several options of `sshfs`
    full    the other memory has too little room, with and without the option `sshfs_sync`
All three, or each PART that is named. It prints what each run said last, its status and its seconds.
It wants root, and `sshfs`, `sshd`, `ssh-keygen`, `ip` and `nsenter`. Keys and files are in a temporary folder, and no file of the system is changed; no byte leaves
this machine, as the namespaces lead nowhere else. All is taken down at the end, also after an interrupt.
"""
import contextlib
import os
import queue
import shutil
import signal
import socket
import statistics
import subprocess
import sys
import tempfile
import threading
import time

from local_memory import scanned_array, walked_list

NEAR, FAR = "192.0.2.1", "192.0.2.2"
SERVER_PORT, RELAY_PORT = 2222, 2022
DELAY = 0.0005
OBJECTS = 1_200
WALKS = 3
MOVERS = (0, 1, 4, 16)
CUT_AFTER = 2
HANGS = 10
MOST_SECONDS = 120
TOOLS = ("sshfs", "ssh", "ssh-keygen", "ip", "nsenter", "fusermount3")
SERVER = shutil.which("sshd") or "/usr/sbin/sshd"
NO_FUSS = "BatchMode=yes,IdentitiesOnly=yes,StrictHostKeyChecking=yes,ConnectTimeout=5"
LIST = walked_list(OBJECTS, WALKS)
SCAN = scanned_array(OBJECTS * 64, WALKS)


def send(waiting, sink):
    """Sends what waits, each piece when it is due, until there is no more or the connection has ended."""
    with contextlib.suppress(OSError):
        while (held := waiting.get()) is not None:
            due, piece = held
            time.sleep(max(0, due - time.monotonic()))
            sink.sendall(piece)
        sink.shutdown(socket.SHUT_WR)


def carry(source, sink):
    """Hands on what comes from the one socket to the other, each byte after the delay."""
    waiting = queue.SimpleQueue()
    threading.Thread(target=send, args=(waiting, sink), daemon=True).start()
    with contextlib.suppress(OSError):
        while piece := source.recv(65_536):
            waiting.put((time.monotonic() + DELAY, piece))
    waiting.put(None)


def relay():
    """Stands between the wire and the server until it is ended."""
    door = socket.create_server((FAR, RELAY_PORT))
    while True:
        near, _ = door.accept()
        far = socket.create_connection(("127.0.0.1", SERVER_PORT))
        for it in (near, far):
            it.setsockopt(socket.IPPROTO_TCP, socket.TCP_NODELAY, 1)
        for ends in ((near, far), (far, near)):
            threading.Thread(target=carry, args=ends, daemon=True).start()


def call(*words):
    return subprocess.run(words, check=True, capture_output=True, text=True).stdout


def until(true, what):
    """Waits until this is true."""
    for _ in range(200):
        if true():
            return
        time.sleep(0.05)
    sys.exit(f"{what}: not within ten seconds")


class Hosts:
    """Two namespaces with a wire between them, of which the far one has a server of a folder in memory."""

    def __init__(self, room, down):
        self.room, self.down = room, down
        self.near, self.far = f"c0far_near_{os.getpid()}", f"c0far_far_{os.getpid()}"
        self.wires = {self.near: f"cn{os.getpid()}", self.far: f"cf{os.getpid()}"}
        self.relays = None

    def inside(self, name, *words, **how):
        """Starts a command in a namespace."""
        process = subprocess.Popen(["nsenter", f"--net=/run/netns/{name}", *words], **how)
        self.down.callback(ended, process)
        return process

    def lay_wire(self):
        for name in (self.near, self.far):
            call("ip", "netns", "add", name)
            self.down.callback(taken_down, name)
        call("ip", "-n", self.near, "link", "add", self.wires[self.near], "type", "veth", "peer", "name", self.wires[self.far], "netns", self.far)
        for name, address in ((self.near, NEAR), (self.far, FAR)):
            call("ip", "-n", name, "address", "add", f"{address}/30", "dev", self.wires[name])
            call("ip", "-n", name, "link", "set", self.wires[name], "up")
            call("ip", "-n", name, "link", "set", "lo", "up")

    def pull(self, way):
        """Pulls the wire out of the far host ("down"), or puts it in again ("up")."""
        call("ip", "-n", self.far, "link", "set", self.wires[self.far], way)

    def make_keys(self):
        for name in ("host", "user"):
            call("ssh-keygen", "-q", "-t", "ed25519", "-N", "", "-f", f"{self.room}/{name}")
        with open(f"{self.room}/host.pub", encoding="ascii") as file:
            key = " ".join(file.read().split()[:2])
        with open(f"{self.room}/known", "w", encoding="ascii") as file:
            file.write(f"[{FAR}]:{RELAY_PORT} {key}\n")

    def serve(self):
        """Starts the server, over keys of its own and none of the system's files."""
        if not os.path.isdir("/run/sshd"):
            os.mkdir("/run/sshd", 0o755)
            self.down.callback(os.rmdir, "/run/sshd")
        with open(f"{self.room}/server", "w", encoding="ascii") as file:
            file.write(
                f"Port {SERVER_PORT}\nListenAddress 127.0.0.1\nHostKey {self.room}/host\nAuthorizedKeysFile {self.room}/user.pub\nPidFile none\nUsePAM no\n"
                "PasswordAuthentication no\nPermitRootLogin prohibit-password\nStrictModes no\nSubsystem sftp internal-sftp\n")
        log = self.down.enter_context(open(f"{self.room}/server.log", "w", encoding="utf-8"))
        self.inside(self.far, SERVER, "-D", "-e", "-f", f"{self.room}/server", stderr=log)
        self.begin_relay()

    def begin_relay(self):
        self.relays = self.inside(self.far, sys.executable, os.path.realpath(__file__), "--relay")
        until(lambda: f":{RELAY_PORT:04X} " in call("nsenter", f"--net=/run/netns/{self.far}", "cat", "/proc/net/tcp"), "the relay")

    def end_relay(self):
        self.relays.kill()
        self.relays.wait()


def taken_down(name):
    """Ends what still runs in a namespace, as a server whose connection was cut, and removes it."""
    for process in call("ip", "netns", "pids", name).split():
        with contextlib.suppress(ProcessLookupError):
            os.kill(int(process), signal.SIGKILL)
    call("ip", "netns", "del", name)


def ended(process):
    """Ends a process that was started here, if it has not ended."""
    if process.poll() is None:
        process.terminate()
        try:
            process.wait(5)
        except subprocess.TimeoutExpired:
            process.kill()
            process.wait()


@contextlib.contextmanager
def mounted(hosts, options=(), size="256m", inside="store"):
    """A folder in the other host's memory: one inside of the folder that `sshfs` makes of it, or that folder itself."""
    other, here = (f"{hosts.room}/{it}" for it in ("other", "here"))
    for it in (other, here):
        os.makedirs(it, exist_ok=True)
    with contextlib.ExitStack() as down:
        call("mount", "-t", "tmpfs", "-o", f"size={size}", "none", other)
        down.callback(call, "umount", "--lazy", other)
        os.mkdir(f"{other}/store")
        keys = f"IdentityFile={hosts.room}/user,UserKnownHostsFile={hosts.room}/known"
        more = [word for option in options for word in ("-o", option)]
        log = down.enter_context(open(f"{hosts.room}/sshfs.log", "a", encoding="utf-8"))
        process = hosts.inside(hosts.near, "sshfs", "-f", "-F", "/dev/null", "-p", str(RELAY_PORT), "-o", NO_FUSS, "-o", keys, *more, f"root@{FAR}:{other}", here, stderr=log)
        down.callback(unmounted, process, here)
        until(lambda: os.path.ismount(here), "the folder of the other host")
        yield os.path.join(here, inside)


def unmounted(process, here):
    subprocess.run(["fusermount3", "-u", "-z", "-q", here], check=False, capture_output=True)
    ended(process)


class Run:
    """A run of a text over a store in this folder."""

    def __init__(self, program, room, text, folder, frames, movers, options=()):
        with open(f"{room}/a.c0", "w", encoding="ascii") as file:
            file.write(text)
        sizes = ["--frames", str(frames), "--objects", str(OBJECTS + 64), "--evacuators", str(movers), "--fetchers", str(movers), "--workers", "1"]
        self.begun = time.monotonic()
        self.process = subprocess.Popen([program, "run", *sizes, *options, "--store", folder, f"{room}/a.c0"], stdout=subprocess.PIPE, stderr=subprocess.STDOUT, text=True)

    def end(self, within):
        """What it said last, its status and the seconds from its beginning, or nothing where it goes on for longer."""
        try:
            said, _ = self.process.communicate(timeout=within)
        except subprocess.TimeoutExpired:
            return None
        return (said.splitlines() or [""])[-1], self.process.returncode, time.monotonic() - self.begun

    def __enter__(self):
        return self

    def __exit__(self, *_):
        if self.process.poll() is None:
            self.process.kill()
            self.process.wait()
        self.process.stdout.close()


def told(answer):
    return f"result: {(answer + 2**31) % 2**32 - 2**31}"


def tell(name, came, right=None):
    if came is None:
        print(f"  {name}: it still goes on after {MOST_SECONDS} s", flush=True)
    else:
        said = "the right answer" if right and came[0] == told(right) else came[0]
        print(f"  {name}: {said}, status {came[1]}, {came[2]:.2f} s", flush=True)


def emptied(folder):
    for it in os.scandir(folder):
        os.unlink(it.path)


def call_seconds(folder):
    """The middle of the times of a call of the folder, which asks for a file that is not there."""
    took = []
    for i in range(100):
        begun = time.monotonic()
        os.path.exists(f"{folder}/none_{i}")
        took.append(time.monotonic() - begun)
    return statistics.median(took)


def speed(program, hosts):
    with tempfile.TemporaryDirectory(dir=hosts.room) as local, mounted(hosts) as folder:
        print(f"a call of the folder: {call_seconds(folder) * 1000:.2f} ms; {OBJECTS} objects, gone through {WALKS} times, a quarter local")
        for name, (answer, objects, text), options in (("list", LIST, ()), ("scan", SCAN, ()), ("scan, pieces of 256 cells", SCAN, ("--piece", "256"))):
            frames = objects // 4 // (4 if options else 1)
            for where, at, counts in (("files on this host", local, (0,)), ("the other host", folder, MOVERS)):
                for movers in counts:
                    with Run(program, hosts.room, text, at, frames, movers, options) as run:
                        tell(f"{name}, {where}, {movers} movers of each sort", run.end(MOST_SECONDS), answer)
                    emptied(at)


def closed(hosts):
    hosts.end_relay()


def closed_for_a_second(hosts):
    hosts.end_relay()
    time.sleep(1)
    hosts.begin_relay()


def pulled(hosts):
    hosts.pull("down")


def given_up(hosts):
    """The wire is pulled, and two seconds later the folder is given up by force, which tells that it is busy, and has its calls refused."""
    hosts.pull("down")
    time.sleep(2)
    subprocess.run(["umount", "-f", f"{hosts.room}/here"], check=False, capture_output=True)


CUTS = (
    ("the connection is closed", (), closed, "store"),
    ("the same, the folder of sshfs is the store", (), closed, ""),
    ("the connection is closed for a second, reconnect", ("reconnect",), closed_for_a_second, "store"),
    ("the wire is pulled, ServerAliveInterval=1, ServerAliveCountMax=2", ("ServerAliveInterval=1", "ServerAliveCountMax=2"), pulled, "store"),
    ("the wire is pulled, umount -f two seconds later", (), given_up, "store"),
    (f"the wire is pulled for {HANGS} s", (), pulled, "store"),
)


def state_of(folder):
    """What has become of the folder that `sshfs` made."""
    if os.path.ismount(folder):
        return "is still there"
    try:
        return f"is one of this host, with {len(os.listdir(folder))} files"
    except OSError:
        return "answers nothing"


def cut_one(program, hosts, name, options, how, inside, movers):
    """A run in the middle of which something is cut."""
    here = f"{hosts.room}/here"
    with contextlib.ExitStack() as down:
        folder = down.enter_context(mounted(hosts, options, inside=inside))
        run = down.enter_context(Run(program, hosts.room, LIST[2], folder, OBJECTS // 4, movers))
        time.sleep(CUT_AFTER)
        before = time.monotonic()
        how(hosts)
        down.callback(hosts.pull, "up")
        came = run.end(HANGS)
        if came is None:
            print(f"  {name}, {movers} movers: it waits for {time.monotonic() - before:.1f} s; the wire is put in again", flush=True)
            hosts.pull("up")
            came = run.end(MOST_SECONDS)
        tell(f"{name}, {movers} movers", came, LIST[0])
        print(f"    {time.monotonic() - before:.2f} s after the cut; the folder of sshfs {state_of(here)}", flush=True)
        if hosts.relays.poll() is not None:
            hosts.begin_relay()
    emptied(here)


def cut(program, hosts):
    print(f"a list whose connection is cut after {CUT_AFTER} s")
    for name, options, how, inside in CUTS:
        for movers in (0, 4):
            cut_one(program, hosts, name, options, how, inside, movers)


def full(program, hosts):
    print("a list, and room for a part of its objects in the other memory")
    for name, options in (("as it is", ()), ("sshfs_sync", ("sshfs_sync",))):
        for movers in (0, 4):
            with mounted(hosts, options, "2m") as folder, Run(program, hosts.room, LIST[2], folder, OBJECTS // 4, movers) as run:
                tell(f"{name}, {movers} movers", run.end(MOST_SECONDS), LIST[0])


PARTS = {"speed": speed, "cut": cut, "full": full}


def main():
    if len(sys.argv) < 2 or not set(sys.argv[2:]) <= set(PARTS):
        sys.exit(__doc__)
    missing = [it for it in (*TOOLS, SERVER) if not shutil.which(it)]
    if os.geteuid() != 0 or missing:
        sys.exit(f"it wants root, and what is not here: {' '.join(missing)}")
    signal.signal(signal.SIGTERM, lambda *_: sys.exit(1))
    program = os.path.abspath(sys.argv[1])
    with tempfile.TemporaryDirectory() as room, contextlib.ExitStack() as down:
        hosts = Hosts(room, down)
        hosts.lay_wire()
        hosts.make_keys()
        hosts.serve()
        for name in sys.argv[2:] or PARTS:
            PARTS[name](program, hosts)


if __name__ == "__main__":
    if sys.argv[1:] == ["--relay"]:
        relay()
    else:
        main()
