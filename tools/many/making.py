"""Makes replications side by side, by GNU parallel on this machine and on others, or by xargs where parallel isn't there.

What is yielded are rows, each as soon as its replication has ended. Each way runs `replication` in a folder that ./runs has put
together, or in its copy on another machine.
"""
import contextlib
import io
import os
import pathlib
import shlex
import shutil
import signal
import subprocess
import tarfile
import tempfile

import results

HOST_TRIES = 3
MOST_A_LOGIN = 20


class Trouble(Exception):
    """What can't be done, as one line."""


def processors():
    return len(os.sched_getaffinity(0))


def has_parallel():
    """Whether GNU's parallel is there; another program has the same name."""
    if not shutil.which("parallel"):
        return False
    said = subprocess.run(["parallel", "--version"], capture_output=True, stdin=subprocess.DEVNULL, check=False)
    return said.stdout.startswith(b"GNU parallel")


def orders_of(jobs):
    """What `replication` is told for each job, which is a number and a value."""
    return [f"{number} {value} {results.seed_of(number)}" for number, value in jobs]


@contextlib.contextmanager
def lines_of(words, given, environment, folder):
    """The output of a program to which lines are given. It is ended where the reading is left."""
    with tempfile.TemporaryFile() as orders:
        orders.write("".join(f"{line}\n" for line in given).encode())
        orders.seek(0)
        with subprocess.Popen(words, stdin=orders, stdout=subprocess.PIPE, env=environment, cwd=folder) as process:
            try:
                yield process.stdout
            finally:
                end(process)


def end(process):
    """Ends a program that is still under way. GNU parallel ends its jobs when it is told twice."""
    process.stdout.close()
    for sent in (signal.SIGTERM, signal.SIGTERM, signal.SIGKILL):
        with contextlib.suppress(subprocess.TimeoutExpired):
            process.wait(1 if sent is signal.SIGTERM else 10)
        if process.poll() is not None:
            return
        process.send_signal(sent)


def environment_for(home):
    """The environment of parallel, without anybody's settings of it."""
    kept = {name: value for name, value in os.environ.items() if not name.startswith("PARALLEL")}
    return kept | {"PARALLEL_HOME": home, "PARALLEL_SHELL": shutil.which("bash") or "/bin/bash"}


def parallel_words(is_shown):
    return ["parallel", "--plain", "--will-cite", "--line-buffer", "--halt", "now,fail=1", *(["--bar"] if is_shown else [])]


def by_parallel(folder, jobs, at_once, is_shown):
    given = [f"bash ./replication {order}" for order in orders_of(jobs)]
    with tempfile.TemporaryDirectory() as home:
        words = [*parallel_words(is_shown), "-j", str(at_once)]
        with lines_of(words, given, environment_for(home), folder) as lines:
            yield from results.records_of(lines)


def by_xargs(folder, jobs, at_once):
    with tempfile.TemporaryDirectory() as home:
        environment = os.environ | {"RUNS_LOCK": f"{home}/lock"}
        words = ["xargs", "-P", str(at_once), "-n", "3", "bash", "./replication"]
        with lines_of(words, orders_of(jobs), environment, folder) as lines:
            yield from results.records_of(lines)


class Host:
    """A line of a file of hosts: how many jobs at once, where that is said, and how the machine is reached."""

    def __init__(self, line):
        count, _, rest = line.partition("/")
        self.jobs = int(count) if count.isdigit() and int(count) > 0 else None
        self.login = rest.strip() if self.jobs else line

    def words(self):
        if self.login == ":":
            return ["sh", "-c"]
        if " " in self.login:
            return shlex.split(self.login)
        return ["ssh", "-o", "BatchMode=yes", self.login]

    def does(self, script, given=b""):
        """What a script of the shell writes there."""
        try:
            done = subprocess.run([*self.words(), script], input=given, capture_output=True, check=False)
        except FileNotFoundError as error:
            raise Trouble(f"{error.filename} isn't there, by which {self.login} would be reached") from error
        if done.returncode:
            said = done.stderr.decode(errors="replace").strip().splitlines() or [f"status {done.returncode}"]
            raise Trouble(f"{self.login} can't be used: {said[-1]}")
        return done.stdout.decode().strip()


def hosts_of(path):
    lines = [line.partition("#")[0].strip() for line in pathlib.Path(path).read_text(encoding="utf-8").splitlines()]
    hosts = [Host(line) for line in lines if line]
    if not hosts:
        raise Trouble(f"{path} names no host")
    return hosts


def packed(folder):
    made = io.BytesIO()
    with tarfile.open(fileobj=made, mode="w") as archive:
        archive.add(folder, arcname=".")
    return made.getvalue()


@contextlib.contextmanager
def brought_to(hosts, folder, there):
    """Brings a folder to each host, asks there how many jobs it takes at once, and clears up in the end."""
    archive, place = packed(folder), shlex.quote(there)
    try:
        for host in hosts:
            count = host.does(f"umask 077; mkdir -p {place} && [ -O {place} ] && tar -xof - -C {place} && nproc", archive)
            host.jobs = host.jobs or int(count)
        yield
    finally:
        for host in hosts:
            with contextlib.suppress(Trouble):
                host.does(f"rm -rf {place}")


def by_hosts(folder, jobs, hosts, is_shown):
    """As by_parallel, on other machines. Each login makes several replications, so that ssh takes little of the time."""
    there = f"/tmp/chi-runs-{os.urandom(16).hex()}"
    with brought_to(hosts, folder, there), tempfile.TemporaryDirectory() as home:
        orders = orders_of(jobs)
        size = max(1, min(MOST_A_LOGIN, len(orders) // (8 * sum(host.jobs for host in hosts))))
        given = [f"bash {there}/replication {' '.join(orders[at : at + size])}" for at in range(0, len(orders), size)]
        logins = pathlib.Path(home, "hosts")
        logins.write_text("".join(f"{host.jobs}/{host.login}\n" for host in hosts), encoding="utf-8")
        words = [*parallel_words(is_shown), "--ssh", "ssh -o BatchMode=yes", "--retries", str(HOST_TRIES), "--sshdelay", "0.05"]
        with lines_of([*words, "--sshloginfile", str(logins)], given, environment_for(home), folder) as lines:
            yield from results.records_of(lines)
