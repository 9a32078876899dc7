"""Both ends of the link: the program's processes, and a server that answers by a script."""
import contextlib
import itertools
import os
import re
import select
import shutil
import signal
import socket
import struct
import subprocess
import sys
import threading
import time

import clocks

# The top of the repository.
TOP = os.path.dirname(os.path.dirname(os.path.dirname(os.path.abspath(__file__))))
# Enough for whatever is to come, also on a machine that has much else to do.
SECONDS = 400
# Milliseconds of the same, where a timeout is a setting.
LONG = 60_000
# Runs a program under a limit of the system: its name, its number, and the words. A write beyond a
# file's size then fails.
LIMITED = """import os, resource, signal, sys
signal.signal(signal.SIGXFSZ, signal.SIG_IGN)
resource.setrlimit(getattr(resource, sys.argv[1]), (int(sys.argv[2]), int(sys.argv[2])))
os.execv(sys.argv[3], sys.argv[3:])"""
# The numbers of calls of the system: accept(2) and accept4(2), and fchown(2).
CALLS = {"accept": (43, 288), "fchown": (93, 93)}
# Runs a program of x86-64 whose calls of these fail, by a filter of seccomp(2): their name, the
# error's number, and the words.
WITHOUT_CALLS = f"""import ctypes, os, struct, sys
ALLOWED, FAILS, CALLS = 0x7fff0000, 0x50000 | int(sys.argv[2]), {CALLS}[sys.argv[1]]
lines = [(0x20, 0, 0, 0), (0x15, 1, 0, CALLS[0]), (0x15, 0, 1, CALLS[1]), (6, 0, 0, FAILS), (6, 0, 0, ALLOWED)]
class Filter(ctypes.Structure):
    _fields_ = [("count", ctypes.c_ushort), ("lines", ctypes.c_char_p)]
it, libc = Filter(len(lines), b"".join(struct.pack("HBBI", *line) for line in lines)), ctypes.CDLL(None)
assert libc.prctl(38, 1, 0, 0, 0) == 0 and libc.prctl(22, 2, ctypes.byref(it), 0, 0) == 0
os.execv(sys.argv[3], sys.argv[3:])"""


# Runs a program of x86-64, and a child of that traces it by ptrace(2). "noted", the file of the
# notes, and the words: of each call of the system it notes the number, the first argument, the
# third, and the result, before the program goes on, and "end" once that has ended. "failing", a
# call's number, the error and how many such calls are made before, as "17,5,0", and the words: that
# call isn't made, and fails so. "killed", the numbers of some calls and how many of all these are
# made before, as "18,82,0", and the words: the program is killed at the next one, which isn't made.
TRACED = f"""import ctypes, os, struct, sys
sys.path.insert(0, {os.path.dirname(os.path.abspath(__file__))!r})
from tracing import let_begin, libc, ptrace, seize
INTERRUPT, LISTEN, GO_ON, INFO, POKE, TRACED_BY = 0x4207, 0x4208, 24, 0x420e, 6, 0x59616d61
CALL_PLACE, RESULT_PLACE = 8 * 15, 8 * 10
traced, info = os.getpid(), ctypes.create_string_buffer(88)
ready, is_ready = os.pipe()
tracer = os.fork()
if tracer:
    libc.prctl(TRACED_BY, tracer, 0, 0, 0)
    os.close(is_ready)
    assert os.read(ready, 1), "it can't be traced"
    os.execv(sys.argv[3], sys.argv[3:])
notes, failing, killed, before, begun = None, -1, [], 0, (0,) * 7
if sys.argv[1] == "noted":
    notes = open(sys.argv[2], "w", buffering=1)
elif sys.argv[1] == "killed":
    *killed, before = map(int, sys.argv[2].split(","))
else:
    failing, error, before = map(int, sys.argv[2].split(","))
seize(traced, 1)
ptrace(traced, INTERRUPT, 0, 0)
let_begin(is_ready)
while True:
    status = os.waitpid(traced, 0x40000000)[1]
    if not os.WIFSTOPPED(status):
        break
    signal, event, goes_on, handed = os.WSTOPSIG(status), status >> 16, GO_ON, 0
    if signal == 0x85:
        ptrace(traced, INFO, 88, ctypes.addressof(info))
        if info.raw[0] == 1:
            begun = struct.unpack_from("<7Q", info.raw, 24)
            if not notes and begun[0] == failing:
                before -= 1
                if before == -1:
                    ptrace(traced, POKE, CALL_PLACE, -1)
            elif begun[0] in killed:
                before -= 1
                if before == -1:
                    os.kill(traced, 9)
        elif info.raw[0] == 2 and notes:
            print(begun[0], begun[1], begun[3], *struct.unpack_from("<q", info.raw, 24), file=notes)
        elif info.raw[0] == 2 and begun[0] == failing and before == -1:
            ptrace(traced, POKE, RESULT_PLACE, -error)
    elif not event:
        handed = signal
    elif signal in (19, 20, 21, 22):
        goes_on = LISTEN
    ptrace(traced, goes_on, 0, handed)
if notes:
    print("end", file=notes)"""
SCRIPTS = {
    **dict.fromkeys(CALLS, WITHOUT_CALLS),
    **dict.fromkeys(("noted", "failing", "killed"), TRACED),
    "clock": clocks.TICKING,
}


def under(limit):
    """The words before a program's that run it under this limit, where there is one: one of
    LIMITED, of WITHOUT_CALLS, of TRACED, of clocks.py, or what strace(1) injects."""
    if not limit:
        return []
    if limit[0] == "strace":
        return ["strace", "-D", "-qq", "-o", os.devnull, "-e", f"inject={limit[1]}"]
    return [sys.executable, "-I", "-S", "-c", SCRIPTS.get(limit[0], LIMITED), *map(str, limit)]


def free_port():
    """A port that was free just now; another process may take it before long, so a server had
    better choose its own (0)."""
    with socket.socket() as probe:
        probe.bind(("127.0.0.1", 0))
        return probe.getsockname()[1]


@contextlib.contextmanager
def nobody_there():
    """An address at which nobody listens, nor can anybody else begin to."""
    with socket.socket() as held:
        held.bind(("127.0.0.1", 0))
        yield f"127.0.0.1:{held.getsockname()[1]}"


@contextlib.contextmanager
def crowded_port():
    """An address whose queue is full, so that a connect waits for ever: nobody accepts, and Linux
    queues one more than it is told."""
    with socket.socket() as listening, contextlib.ExitStack() as crowd:
        listening.bind(("127.0.0.1", 0))
        listening.listen(0)
        for _ in range(4):
            waiting = crowd.enter_context(socket.socket())
            waiting.setblocking(False)
            waiting.connect_ex(listening.getsockname())
        # (they have to be there before anybody else is)
        time.sleep(0.1)
        yield f"127.0.0.1:{listening.getsockname()[1]}"


def loopback_of_6():
    """The loopback of IPv6, or that of IPv4 where a machine has no other."""
    try:
        with socket.create_server(("::1", 0), family=socket.AF_INET6):
            return "::1"
    except OSError:
        return "127.0.0.1"


def sockets_of(process):
    """The system's numbers of the sockets that a process has open."""
    folder, found = f"/proc/{process.pid}/fd", set()
    with contextlib.suppress(OSError):
        for name in os.listdir(folder):
            with contextlib.suppress(OSError):
                found.add(
                    os.readlink(f"{folder}/{name}").removeprefix("socket:[").removesuffix("]")
                )
    return found


def listening_port(process):
    """The port at which a process listens; 0 where it doesn't."""
    own = sockets_of(process)
    for table in ("tcp", "tcp6"):
        with open(f"/proc/net/{table}", encoding="ascii") as lines:
            next(lines)
            for _, local, _, state, *_, number in (line.split()[:10] for line in lines):
                # (those that listen stand first)
                if state != "0A":
                    break
                if number in own:
                    return int(local.rpartition(":")[2], 16)
    return 0


def wait_for_listener(process):
    """Waits until a process listens, without a connection, which would be counted; gives the port,
    and 0 where it ended before."""
    found = []
    wait_until(
        lambda: found.append(listening_port(process)) or found[-1] or process.poll() is not None
    )
    return found[-1]


def wait_until(holds):
    """Waits until this holds; returns whether it does."""
    end = time.monotonic() + SECONDS
    while not holds():
        if time.monotonic() > end:
            return False
        time.sleep(0.005)
    return True


def wait_past_midnight(offset=0, seconds=60):
    """Waits, where the day at an offset ends within so many seconds, until the next one has
    begun."""
    while (time.time() + 60 * offset) % 86_400 > 86_400 - seconds:
        time.sleep(1)


def wait_past_a_night(offset=0, seconds=120):
    """Waits, where at an offset midnight or 03:00 comes within so many seconds, until that is over:
    from then on other days are to be forgotten."""
    for begins in (offset, offset - 180):
        wait_past_midnight(begins, seconds)


def soon(what, enough):
    """What one of several goes brings, and how long it took: the first that takes less than so many
    seconds, or the tenth, or the third of long ones.

    A machine that has much else to do may hold one up, and hardly ten.
    """
    begins = time.monotonic()
    for go in range(10):
        start = time.monotonic()
        came = what()
        took = time.monotonic() - start
        if took < enough or go >= 2 and time.monotonic() - begins > SECONDS:
            break
    return came, took


def apart(errors):
    """The log's lines of what came on standard error, and what is printed after them."""
    lines = errors.splitlines(keepends=True)
    log = [line for line in lines if line.startswith("[")]
    return log, "".join(line for line in lines if not line.startswith("["))


def fault(text, output=b"", log=""):
    """What a run ends with, has printed and says where it isn't done, after these lines of its
    log."""
    return 1, output, f"{log}mailquota: {text}\n"


def as_user(user):
    """The words before a program that root runs as this user, who is in no other group."""
    return ["setpriv", f"--reuid={user}", f"--regid={user}", "--clear-groups"]


def wrong_tables(version):
    """Why a file is refused that says of itself that it has the tables of this version."""
    return f"tables of version {version}, but one is missing, is one too many or has wrong contents"


# What the system says.
NOBODY_LISTENS, NO_FILE = (
    "Connection refused (os error 111)",
    "No such file or directory (os error 2)",
)
NOT_ALLOWED = "Permission denied (os error 13)"
# What the store says of a file that another process has open, with what works beside it, and of one
# that is no database.
BUSY, NO_DATABASE = "database is locked", "file is not a database that obeys its schema"
LOCKED = (
    f"{BUSY}: a server or another command has it open; mailquota-limits and mailquota-backup read it"
    " meanwhile"
)


def unreached(address, cause=NOBODY_LISTENS):
    """The line of a log that says why the last try of a request got no answer of this server."""
    return f"[ERROR link] quota server {address}: {cause}\n"


def unavailable(address, cause=NOBODY_LISTENS, output=b""):
    """What a command ends with that gets no answer of this server."""
    return fault("quota service unavailable", output, unreached(address, cause))


def of_store(path, cause):
    """The line of a log that says why the file at this path can't be opened, read or written."""
    return f"[ERROR ledger] {path}: {cause}\n"


def of_settings(path, said):
    """The line of a log that says why a file of settings can't be used."""
    return f"[ERROR settings] {path}: {said}\n"


# What an address lacks.
NO_PORT, PORT_TOO_LARGE = "no port", "port above 65535"
NO_NUMERIC_ADDRESS = "no numeric address before the port; an IPv6 address stands in brackets"


# Why words name no login: by its length, and as a report prints it.
TOO_LONG = "it has to have 1 to 255 bytes"
TO_ESCAPE = "so spaces, backslashes and what isn't printable ASCII are written, or use --login"


def bad_login(given, why=TOO_LONG):
    """What a command of the administrator ends with where it is given this login."""
    log = f"[ERROR commands] login {given}: {why}\n"
    return 2, b"", f"{log}mailquota: bad login\n"


def bad_address(address, lacks):
    """What a command of the administrator ends with where it is given this address."""
    return (
        2,
        b"",
        f"[ERROR commands] address {address}: {lacks}\nmailquota: bad address\n",
    )


# Why no ledger is made in a file.
IS_THERE = "a ledger, or a table that is named as one of its tables, is there"


def refusal(path, cause):
    """The line of a log that says why the ledger of this file isn't taken."""
    return f"[ERROR ledger] {path}: {cause}\n"


def begun(place, zone="offset 0", default=3, answers=0, days=0, limits=0):
    """The first line of a server, as `without_time` leaves it."""
    return (
        f"[INFO  server] ledger {place}: version 3, default {default}, {zone},"
        f" answers={answers} days={days} limits={limits}"
    )


# How the first line of a server ends.
OPENED_IN = re.compile(r", opened in ([0-9]+) ms$")


def without_time(lines):
    """A server's lines, the first one without how long the start took."""
    return [OPENED_IN.sub("", line) for line in lines]


def time_of_start(lines):
    """How many milliseconds a server's start took by its lines; 0 where the first one doesn't say
    so."""
    found = OPENED_IN.search(lines[0])
    return int(found[1]) if found else 0


def toml(settings):
    """The text of settings, without those that are None."""

    def spelled(value):
        if isinstance(value, bool):
            return str(value).lower()
        return f'"{value}"' if isinstance(value, str) else str(value)

    return "".join(
        f"{key} = {spelled(value)}\n" for key, value in settings.items() if value is not None
    )


def ledger_settings(world, path, **more):
    """A file of settings of a server that nobody reaches, over the ledger's file at this path."""
    return world.new_file(
        toml({"listen": "127.0.0.1:1", "store": path, "default": 3, "offset": 0, **more})
    )


def copied(source, path):
    """A copy of a ledger's file at this path, with its log where it has one, and without what a
    server reserved beside an earlier one; gives the path."""
    for end in ("", "-wal"):
        if os.path.exists(source + end):
            shutil.copy(source + end, path + end)
        elif os.path.exists(path + end):
            os.remove(path + end)
    if os.path.exists(f"{path}.ballast"):
        os.remove(f"{path}.ballast")
    return path


def files_in(folder):
    """The names in a folder, in their order, but those of servers' reserves."""
    return sorted(it for it in os.listdir(folder) if not it.endswith(".ballast"))


def state_of(process):
    """What proc(5) says of a process in `stat`, from its state on."""
    with open(f"/proc/{process.pid}/stat", encoding="ascii") as stat:
        return stat.read().rpartition(") ")[2].split()


def processor_time(process):
    """How many seconds of a processor a process has taken."""
    user, system = state_of(process)[11:13]
    return (int(user) + int(system)) / os.sysconf("SC_CLK_TCK")


def greatest_memory(process):
    """The most memory that a process has had at once, in bytes."""
    with open(f"/proc/{process.pid}/status", encoding="ascii") as lines:
        return next(1_024 * int(line.split()[1]) for line in lines if line.startswith("VmHWM:"))


# What stands in a line of what a server logs of requests.
OF_REQUESTS = " requests] "


def but_of_requests(lines):
    """A log's lines but for those of requests: most cases have moments of years long past, and
    logins that near their limits."""
    return [line for line in lines if OF_REQUESTS not in line]


def shown(login):
    """A login as a report prints it: its bytes, and those that are no visible ASCII, and a
    backslash, by their numbers."""
    return "".join(
        chr(byte) if 0x21 <= byte < 0x7F and byte != 0x5C else f"\\x{byte:02x}" for byte in login
    )


class Server:
    """The real server in a process of its own, at a port that the system chooses."""

    def __init__(
        self, world, connections=1_000_000, host="127.0.0.1", words=(), limit=(), **settings
    ):
        listen = f"[{host}]:0" if ":" in host else f"{host}:0"
        whole = {
            "listen": listen,
            "store": "memory",
            "default": 3,
            "offset": 0,
            "timeout": LONG,
            **settings,
        }
        many = ["--connections", str(connections)] if connections else []
        self.begin(
            world,
            ["--config", world.new_file(toml(whole)), *many, *words],
            listen=listen,
            limit=limit,
        )

    @classmethod
    def of_words(cls, world, *words, folder):
        """One that is started in a folder by these words alone, and listens at 127.0.0.1."""
        server = cls.__new__(cls)
        server.begin(world, words, folder=folder)
        return server

    def begin(self, world, words, listen="127.0.0.1:0", folder=None, limit=()):
        self.listen = listen
        self.log = open(world.new_file(""), "w+b")
        self.process = subprocess.Popen(
            [*under(limit), world.program, "server", *words],
            stdin=subprocess.DEVNULL,
            stdout=self.log,
            stderr=self.log,
            cwd=folder,
        )
        self.port = wait_for_listener(self.process)
        self.host = listen.rpartition(":")[0].strip("[]")
        self.address = f"{listen.removesuffix('0')}{self.port}"

    def __enter__(self):
        return self

    def __exit__(self, *_):
        if self.process.poll() is None:
            self.process.terminate()
        self.process.wait(timeout=SECONDS)
        self.log.close()

    @contextlib.contextmanager
    def stopped(self):
        """The system stops it meanwhile, so that what peers send is all there before it looks at
        any."""
        self.process.send_signal(signal.SIGSTOP)
        # (one that is traced is in another state)
        wait_until(lambda: state_of(self.process)[0] in "Tt")
        try:
            yield
        finally:
            self.process.send_signal(signal.SIGCONT)

    def connect(self, room=None, source=None):
        """A connection, with so many bytes of room for what comes back, and from this address of
        the host."""
        peer = socket.socket(socket.AF_INET6 if ":" in self.host else socket.AF_INET)
        peer.settimeout(SECONDS)
        peer.setsockopt(socket.IPPROTO_TCP, socket.TCP_NODELAY, 1)
        if room:
            peer.setsockopt(socket.SOL_SOCKET, socket.SO_RCVBUF, room)
        if source:
            peer.bind((source, 0))
        peer.connect((self.host, self.port))
        return peer

    def ask(self, sent):
        """What comes back on a connection of its own for these bytes."""
        with self.connect() as peer:
            peer.sendall(sent)
            send_no_more(peer)
            return read_all(peer)

    def ask_many(self, frames, at_once=500):
        """What comes back for these, so many on a connection: on a busy machine one's time is over
        before thousands are answered."""
        frames = list(frames)
        return b"".join(
            self.ask(b"".join(frames[first : first + at_once]))
            for first in range(0, len(frames), at_once)
        )

    def log_lines(self):
        """What it logged, but for the lines of requests."""
        return but_of_requests(self.all_log_lines())

    def all_log_lines(self):
        with open(self.log.name, errors="replace") as log:
            return log.read().splitlines()

    def status(self):
        return self.process.wait(timeout=SECONDS)


def send_no_more(peer):
    """Ends what is sent; a server that has ended the connection already is no fault."""
    try:
        peer.shutdown(socket.SHUT_WR)
    except OSError:
        pass


def read_to_end(peer):
    """All that a peer sends until it sends no more; a reset is an error."""
    return b"".join(iter(lambda: peer.recv(65_536), b""))


def read_all(peer, is_enough=lambda whole: False):
    """All that a peer sends until it sends no more, is reset, or has sent enough."""
    whole = b""
    while not is_enough(whole):
        try:
            piece = peer.recv(65_536)
        except ConnectionResetError:
            return whole
        if not piece:
            return whole
        whole += piece
    return whole


def read_request(peer):
    """What a peer sends up to the end of a whole frame, with what came behind it by then: one that
    keeps its connection doesn't end its sending."""
    return read_all(peer, is_whole)


def is_whole(sent):
    """Whether a whole frame is there."""
    return len(sent) >= 2 and len(sent) >= 2 + int.from_bytes(sent[:2], "big")


def reset(peer):
    """Ends a connection by a reset."""
    peer.setsockopt(socket.SOL_SOCKET, socket.SO_LINGER, struct.pack("ii", 1, 0))
    peer.close()


SILENCE = object()
RESET = object()
DRIP = object()


class Listening:
    """Listens on a loopback and answers in a thread of its own, from the begin of a case to its
    end."""

    def __init__(self, host="127.0.0.1"):
        self.listener = socket.create_server(
            (host, 0), backlog=128, family=socket.AF_INET6 if ":" in host else socket.AF_INET
        )
        self.port = self.listener.getsockname()[1]
        self.address = f"[{host}]:{self.port}" if ":" in host else f"{host}:{self.port}"
        self.is_over = False
        self.thread = threading.Thread(target=self.serve, daemon=True)

    def __enter__(self):
        self.thread.start()
        return self

    def __exit__(self, *_):
        self.is_over = True
        self.thread.join(timeout=SECONDS)
        self.listener.close()

    def serve(self):
        raise NotImplementedError

    def next_peer(self):
        """The next connection, or None once the case is over and all that came before were
        heard."""
        while True:
            is_over = self.is_over
            if select.select([self.listener], [], [], 0.05)[0]:
                peer = self.listener.accept()[0]
                peer.settimeout(SECONDS)
                return peer
            if is_over:
                return None


class Script(Listening):
    """A server that answers its connections by a list: bytes, SILENCE until the peer gives up,
    DRIP, a byte now and then for as long, or RESET.

    A function in the list is given what came and makes one of these. After the list nobody listens,
    or each further question is answered by `otherwise`.
    """

    def __init__(self, answers, host="127.0.0.1", otherwise=None):
        super().__init__(host)
        self.answers = list(answers)
        self.otherwise = otherwise
        self.heard = []
        self.heard_later = []
        self.silent = []

    def __exit__(self, *_):
        super().__exit__()
        for peer in self.silent:
            peer.close()

    def serve(self):
        for answer in self.answers:
            peer = self.next_peer()
            if peer is None:
                return
            self.heard.append(read_request(peer))
            if callable(answer):
                answer = answer(self.heard[-1])
            if answer is SILENCE:
                self.silent.append(peer)
            elif answer is DRIP:
                self.drip(peer)
            elif answer is RESET:
                # (one that comes before the peer said that it sends no more is told otherwise)
                with contextlib.suppress(OSError):
                    peer.settimeout(1)
                    peer.recv(1)
                reset(peer)
            else:
                self.give(peer, answer)
        while self.otherwise and (peer := self.next_peer()):
            self.heard_later.append(read_request(peer))
            self.give(peer, self.otherwise(self.heard_later[-1]))
        self.listener.close()

    def drip(self, peer):
        """A reply of 65,535 bytes, one each tenth of a second."""
        try:
            for byte in b"\xff" * 65_537:
                if self.is_over:
                    break
                peer.sendall(bytes([byte]))
                time.sleep(0.1)
        except OSError:
            pass
        peer.close()

    @staticmethod
    def give(peer, reply):
        try:
            peer.sendall(reply)
            peer.close()
        except OSError:
            pass


class Relay(Listening):
    """Stands between a command and a real server, and notes what went each way: a connection at a
    time."""

    def __init__(self, server):
        super().__init__()
        self.server = server
        self.told = []

    def serve(self):
        while peer := self.next_peer():
            with peer:
                heard = read_request(peer)
                reply = self.server.ask(heard)
                self.told.append((heard, reply))
                peer.sendall(reply)


class World:
    """The program under test and a folder for its files."""

    def __init__(self, program, folder):
        self.program = program
        self.folder = folder
        self.numbers = itertools.count(1)

    def new_file(self, content):
        path = f"{self.folder}/{next(self.numbers)}.toml"
        with open(path, "wb") as file:
            file.write(content if isinstance(content, bytes) else content.encode())
        return path

    def run(self, *words, text=b"", output=None, folder=None, limit=()):
        """Runs the program, in this folder where one is given, under this limit where one is; gives
        its status, its output and its errors as text."""
        run = subprocess.run(
            [*under(limit), self.program, *words],
            input=text,
            stdout=output or subprocess.PIPE,
            stderr=subprocess.PIPE,
            timeout=SECONDS * 2,
            cwd=folder,
        )
        return run.returncode, run.stdout or b"", run.stderr.decode(errors="replace")

    def run_with_room(self, room, *words, text=b""):
        """Runs the program over an output that takes so many bytes; gives its status, what the
        output took, and its errors."""
        path = self.new_file("")
        with open(path, "r+b") as output:
            status, _, errors = self.run(
                *words, text=text, output=output, limit=("RLIMIT_FSIZE", room)
            )
            output.seek(0)
            return status, output.read(), errors

    def filter_file(self, address, **settings):
        return self.new_file(
            toml({"host": "mx1", "server": address, "tries": 3, "timeout": LONG, **settings})
        )

    def filter(self, address, text, **settings):
        return self.run(
            "filter", "--config", self.filter_file(address, **settings), "--run", "1", text=text
        )
