"""A room in which parts of a stream are run by servers of its own, for tests/engines.py: sshd, Slurm's and Dask's.

They are started in the room's folder, on free ports of the loopback. They end with the room, and so does all that was
started below them: each process is ended by its process id, and is told by a mark in its environment or by its folder.
Nothing is written outside the folder, but /run/sshd is made for sshd where root runs this.
"""
import contextlib
import functools
import getpass
import glob
import os
import random
import shutil
import signal
import socket
import subprocess
import sys
import threading
import time

from room import Room, ended
from streams import SECONDS, Wrong, expect

NODES = ("node1", "node2")
MARK = "EXEC_RUN_ENGINES"
# where the servers lie, which isn't on everyone's path
SERVERS = "/usr/sbin"
# sshd wants this folder where root starts it: its service makes it
EMPTY = "/run/sshd"
PYTHONS = ("python3", sys.executable, "/usr/bin/python3")
# the ports that were handed out, by one test at a time
HANDED, HANDING = set(), threading.Lock()

SSHD = """
ListenAddress 127.0.0.1
Port {port}
HostKey {room}/host_key
AuthorizedKeysFile {room}/key.pub
PidFile none
StrictModes no
UsePAM no
PermitRootLogin yes
PasswordAuthentication no
KbdInteractiveAuthentication no
PermitUserRC no
SetEnv HOME={room} PATH={path} {mark}={room}
"""

SSH = """
Host {nodes}
  HostName 127.0.0.1
  Port {port}
  User {user}
  IdentityFile {room}/key
  IdentitiesOnly yes
  UserKnownHostsFile {room}/known_hosts
  StrictHostKeyChecking accept-new
  BatchMode yes
  LogLevel ERROR
  KexAlgorithms curve25519-sha256
"""

SLURM = """
ClusterName=parts
SlurmctldHost={host}(127.0.0.1)
SlurmctldPort={ports[0]}
SlurmUser={user}
SlurmdUser={user}
AuthType=auth/munge
AuthInfo=socket={room}/munge.socket
CredType=cred/munge
StateSaveLocation={room}/state
SlurmdSpoolDir={room}/%n
SlurmctldPidFile={room}/slurmctld.pid
SlurmdPidFile={room}/%n.pid
ProctrackType=proctrack/linuxproc
TaskPlugin=task/none
JobAcctGatherType=jobacct_gather/none
AccountingStorageType=accounting_storage/none
MpiDefault=none
SelectType=select/cons_tres
SelectTypeParameters=CR_CPU
SchedulerParameters=batch_sched_delay=0,sched_min_interval=0
KillWait=2
NodeName=node1 NodeHostname={host} NodeAddr=127.0.0.1 Port={ports[1]} CPUs=2
NodeName=node2 NodeHostname={host} NodeAddr=127.0.0.1 Port={ports[2]} CPUs=2
PartitionName=all Nodes=node1,node2 Default=YES State=UP
"""


def processes():
    return [int(name) for name in os.listdir("/proc") if name.isdigit()]


def environment_of(pid):
    try:
        with open(f"/proc/{pid}/environ", "rb") as file:
            return file.read().split(b"\0")
    except OSError:
        return []


def link_of(pid, name):
    try:
        return os.readlink(f"/proc/{pid}/{name}")
    except OSError:
        return ""


def parent_of(pid):
    with open(f"/proc/{pid}/stat", encoding="utf-8") as file:
        return int(file.read().rsplit(")", 1)[1].split()[1])


def end(pid):
    with contextlib.suppress(ProcessLookupError):
        os.kill(pid, signal.SIGKILL)


def is_free(port):
    with socket.socket() as tried:
        try:
            tried.bind(("127.0.0.1", port))
        except OSError:
            return False
    return True


def free_ports(count):
    """Ports of the loopback that nothing has. They lie below those that the system gives to whoever asks for any, and
    none is handed out twice, so that nothing takes them until a server does."""
    with open("/proc/sys/net/ipv4/ip_local_port_range", encoding="utf-8") as file:
        least = int(file.read().split()[0])
    found = []
    with HANDING:
        for port in random.sample(range(least // 2, least), least // 2):
            if len(found) < count and port not in HANDED and is_free(port):
                found.append(port)
                HANDED.add(port)
    return found


def listens(port):
    with socket.socket() as tried:
        return tried.connect_ex(("127.0.0.1", port)) == 0


@functools.cache
def python_with_dask():
    """A Python that has Dask and its workers, if one is installed."""
    for python in PYTHONS:
        if shutil.which(python) and not ended([python, "-c", "import dask.bag, distributed"]).returncode:
            return python
    return None


class Held:
    """A part whose run waits for more: a pipe stands in the place of the part, and has given its first record."""

    def __init__(self, site, part):
        self.site, self.name, self.pid = site, part, None
        self.path = os.path.realpath(site.path(part))
        self.aside = f"{self.path}.whole"
        os.rename(self.path, self.aside)
        os.mkfifo(self.path)
        self.pipe = os.open(self.path, os.O_RDWR)
        with open(self.aside, "rb") as file:
            first = file.readline()
            self.rest = file.read()
        os.write(self.pipe, first)

    def begun(self):
        """A run reads the part: its process is known from now on."""
        for pid in processes():
            if link_of(pid, "fd/0") == self.path and link_of(pid, "exe") == self.site.program:
                self.pid = pid
        return self.pid is not None

    def wrote(self):
        """The run has written what the first record came to."""
        files = set(glob.glob(f"{self.path}.*")) - {self.aside}
        return self.begun() and any(os.path.getsize(file) for file in files)

    def is_over(self):
        return not link_of(self.pid, "exe")

    def put_back(self):
        """The part stands in its place again, for the runs to come."""
        os.replace(self.aside, self.path)

    def give_rest(self):
        """The run that waits gets the rest of its part, and its end."""
        os.write(self.pipe, self.rest)
        self.close()

    def close(self):
        if self.pipe is not None:
            os.close(self.pipe)
            self.pipe = None


class Site(Room):
    """A room with records, what one run writes of them, and servers."""

    def __init__(self, program, records):
        super().__init__(program)
        self.name = os.path.realpath(self.name)
        self.program, self.servers, self.held = os.path.realpath(program), [], []
        self.tools = f"{self.path('bin')}:{os.environ['PATH']}:{SERVERS}"
        settings = {"PATH": self.tools, MARK: self.name, "TMPDIR": self.name}
        settings |= {"PARALLEL_HOME": self.path(".parallel"), "DASK_CONFIG": self.path(".dask")}
        self.environment = {**os.environ, **settings}
        os.mkdir(self.path(".parallel"))
        self.write(".parallel/will-cite", "")
        self.write("records", records)
        self.one = {"lines": self.run("exec_run run plan.json < records")}
        self.one["summary"] = self.run("exec_run run plan.json --summary < records")

    def __exit__(self, *_):
        for part in self.held:
            part.close()
        for server in reversed(self.servers):
            server.terminate()
        for server in reversed(self.servers):
            with contextlib.suppress(subprocess.TimeoutExpired):
                server.wait(10)
        while left := self.left():
            for pid in left:
                end(pid)
            time.sleep(0.05)
        for server in self.servers:
            server.wait()
        super().__exit__()

    def left(self):
        """The processes that were started in this room, or below one that was, and haven't ended. Some write over
        their environment, and stay in the folder."""
        mark = f"{MARK}={self.name}".encode()
        return [pid for pid in processes() if mark in environment_of(pid) or link_of(pid, "cwd") == self.name]

    def run(self, commands, given=""):
        return ended(["bash", "-c", commands], cwd=self.name, env=self.environment, input=given)

    def start(self, *command):
        """Starts a process that goes on. What it says stands in a file of notes."""
        with open(self.path(f"{len(self.servers)}.notes"), "wb") as notes:
            server = subprocess.Popen(
                command, cwd=self.name, env=self.environment, stdin=subprocess.DEVNULL, stdout=notes, stderr=notes
            )
        self.servers.append(server)
        return server

    def status_of(self, started):
        """How a process ends that was started."""
        self.until("an end", lambda: started.poll() is not None)
        return started.returncode

    def notes(self, server):
        return self.read(f"{self.servers.index(server)}.notes")

    def until(self, what, holds):
        """Waits until this holds. Where it doesn't in time, the last words of all servers are told."""
        until = time.monotonic() + SECONDS
        while not holds():
            if time.monotonic() > until:
                raise Wrong(what, f"within {SECONDS} seconds", [self.notes(it)[-300:] for it in self.servers])
            time.sleep(0.05)

    def hold(self, *parts):
        held = [Held(self, part) for part in parts]
        self.held += held
        return held

    def serve_ssh(self):
        """An sshd that the nodes' names lead to, with a key made for it. Its sessions have the room as their home, so
        that no shell of theirs reads what the account's shells read first."""
        for name in ("host_key", "key"):
            made = self.run(f"ssh-keygen -q -t ed25519 -N '' -f {name}")
            expect("ssh-keygen", (0, ""), (made.returncode, made.stderr))
        [port] = free_ports(1)
        facts = {"room": self.name, "port": port, "path": self.tools, "mark": MARK}
        self.write("sshd_config", SSHD.format(**facts))
        self.write("ssh_config", SSH.format(**facts, nodes=" ".join(NODES), user=getpass.getuser()))
        self.environment["PARALLEL_SSH"] = f"ssh -F {self.path('ssh_config')}"
        if os.getuid() == 0:
            os.makedirs(EMPTY, mode=0o755, exist_ok=True)
        server = self.start(f"{SERVERS}/sshd", "-D", "-e", "-f", self.path("sshd_config"))
        self.until("sshd listens", lambda: listens(port))
        return server

    def serve_slurm(self):
        """A controller and a daemon for each of two nodes, which are this machine."""
        host = socket.gethostname().split(".")[0]
        facts = {"room": self.name, "host": host, "ports": free_ports(3), "user": getpass.getuser()}
        self.write("slurm.conf", SLURM.format(**facts))
        self.environment["SLURM_CONF"] = self.path("slurm.conf")
        for name in ("state", *NODES):
            os.mkdir(self.path(name))
        # munged wants a folder that all may pass through
        os.chmod(self.name, 0o711)
        with open(os.open(self.path("munge.key"), os.O_CREAT | os.O_WRONLY, 0o600), "wb") as key:
            key.write(os.urandom(128))
        files = [f"--{it}-file={self.path(f'munge.{it}')}" for it in ("key", "pid", "log", "seed")]
        self.start(f"{SERVERS}/munged", "--foreground", f"--socket={self.path('munge.socket')}", *files)
        self.until("munged serves", lambda: os.path.exists(self.path("munge.socket")))
        self.start(f"{SERVERS}/slurmctld", "-D")
        for node in NODES:
            self.start(f"{SERVERS}/slurmd", "-D", "-N", node)
        self.until("both nodes are idle", lambda: self.run("sinfo -h -N -o %t").stdout.split() == ["idle", "idle"])

    def serve_dask(self, python):
        """A scheduler, and two worker processes with a thread each."""
        scheduler, worker = ([python, "-m", f"distributed.cli.dask_{it}"] for it in ("scheduler", "worker"))
        told = ("--no-dashboard", "--scheduler-file=scheduler.json")
        self.start(*scheduler, *told, "--host=127.0.0.1", "--port=0")
        self.until("the scheduler serves", lambda: os.path.exists(self.path("scheduler.json")))
        workers = self.start(*worker, *told, "--nworkers=2", "--nthreads=1", f"--local-directory={self.name}")
        self.until("two workers serve", lambda: self.notes(workers).count("Registered to:") >= 2)
