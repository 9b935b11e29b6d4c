#!/usr/bin/env python3
"""Measures the program: how time and memory of the core alone, and of a run, grow with the requests in flight; how long many
small files take over OpenSSH's server beside `sftp -b`, how long some files of a few kilobytes take up and down, and how long
one large file and many small ones take, by scripts and by sftp_transfer; how long many reads through sftp_view's cache take; how
long OpenSSH's client takes over the server of crates/sftp_serve, beside its own; and what lanes take that run in threads, in time beside
one driver of them, and in memory. It prints tables, is no part of the gate, and takes half an hour or more.

    python3 tools/bench.py [FIRST] [LAST]     requests in flight, doubled from FIRST to LAST: from 5000 to 40000
    python3 tools/bench.py threads            the tables of threads alone
    python3 tools/bench.py copies             copies by sftp_transfer alone, beside those of `sftp`
    python3 tools/bench.py short              a large file from a late server whose DATA are shorter than it is asked for
    python3 tools/bench.py counts             more and more small files over a late server, for tools/picture.py

Late servers need a C compiler, cc. A ratio of 2 at a doubling is linear. `sftp` waits for each reply, so it is measured at FIRST alone where replies are late.
BENCH_LIMIT is the most seconds that one run may take: 1200. Memory below that of python3 itself, some 15 MiB, shows as that.
"""
import atexit, os, resource, shutil, socket, subprocess, sys, tempfile, threading, time

ROOT = os.path.dirname(os.path.dirname(os.path.abspath(__file__)))
PROGRAM = ROOT + "/crates/sftp_cli/out/sftp_cli"
LOAD = ROOT + "/crates/bench_core/out/bench_core"
OUR_SERVER = ROOT + "/crates/sftp_serve/out/sftp_serve"
COPIER = ROOT + "/crates/sftp_transfer/out/sftp_transfer"
VIEWER = ROOT + "/crates/sftp_view/out/sftp_view"
SHARER = ROOT + "/crates/sftp_share/out/sftp_share"
THREADED = ROOT + "/crates/example_threads/out/example_threads"
SERVER = "/usr/lib/openssh/sftp-server"
LIMIT = float(os.environ.get("BENCH_LIMIT", "1200"))
# seconds by which each way to a late server is late
DELAY = 0.010
# the most bytes in a DATA of a server that gives less than it is asked for
SHORT_DATA = 16384
# so many files of so many bytes go up and down: as many as one script may hold
FILES, FILE_BYTES = 1000, 8000
# one file of so many bytes comes down, and one of so many goes up: as many as one script may hold
LARGE_DOWN, LARGE_UP = 1 << 28, 8000000
# a file of so many bytes comes down and goes up where replies are not late
HUGE_BYTES = 1 << 30
# a folder of so many files of so many bytes comes down and goes up; and trees of so many folders, each with so many files
TREE_FILES, TREE_BYTES = 1000, 10000
TREE_FOLDERS, FOLDER_FILES = (50, 100), 100
# how many files of TREE_BYTES come down from a late server, one row after another
COUNTS = (1, 10, 30, 100, 300, 1000)
# so many reads of one block each of a file of so many bytes, through a cache of so many blocks
GETS, VIEWED_BYTES, VIEW_BLOCK, VIEW_CAPACITY = 10000, 1 << 20, 4096, 64
# what OpenSSH's client does over either server: so many files of so many bytes up and down, so many directories made and removed
SERVED_FILES, SERVED_BYTES, SERVED_DIRECTORIES = 4, 1 << 24, 5000
# lanes in threads, each of which so often writes a file, reads it and asks for its attributes; and the bytes of a file that is read whole
THREAD_LANES, THREAD_ROUNDS, WHOLE_BYTES = 16, 60, 1 << 24
# how many lanes ask for attributes in threads, and so many requests are theirs together
SWITCH_LANES, SWITCH_STATS = (2, 16, 256), 8192


# ---- scripts

def digits(text):
    """The hexadecimal digits of a text, as scripts spell bytes."""
    return text.encode().hex()


def read_script(paths, files=""):
    """A lane for each path: all OPENs are in flight at once, then all READs, then all CLOSEs."""
    lanes = range(len(paths))
    lines = ["option max_pending_requests 65535"]
    lines += [files] if files else []
    for path in paths:
        lines += ["lane", "open 0 r " + digits(path), "read 0 5", "close 0"]
    for call in range(3):
        # the step that asks, and later the step that ends the call
        lines += [f"step {lane}" for lane in lanes] + ["flush"] + ["take"] * len(paths)
        lines += [f"step {lane}" for lane in lanes]
    return "\n".join(lines) + "\n"


def script_in_turns(calls, phases):
    """Lanes of these calls, all in flight at once; each phase is a step of every lane, and says whether replies are taken then."""
    lanes = range(len(calls))
    lines = ["option max_pending_requests 65535"]
    for lane in calls:
        lines += ["lane"] + lane
    for takes in phases:
        lines += [f"step {lane}" for lane in lanes] + ["flush"] + ["take"] * (len(calls) if takes else 0)
    return "\n".join(lines) + "\n"


def files_up(paths):
    """An OPEN, a WRITE and a CLOSE for each path."""
    return script_in_turns([[f"fs_write {digits(path)} " + "61" * FILE_BYTES] for path in paths], [True, True, True])


def files_down(paths):
    """An OPEN, a READ and a CLOSE for each path."""
    calls = [[f"open 0 r {digits(path)}", f"read_all 0 {FILE_BYTES}", "close 0"] for path in paths]
    return script_in_turns(calls, [True, False, True, False, True, False])


def large_up(path):
    """A file that is written through a buffer: many WRITEs are in flight at once."""
    lines = ["lane", f"open 0 wct {digits(path)}", "buffer 0 1048576", "buf_write_all 0 " + "61" * LARGE_UP, "buf_flush 0", "close 0"]
    return "\n".join(lines) + "\n"


def large_down(path):
    """A file that is read to its end: 64 READs are in flight at once, in as many rounds as READs of 255 KiB want."""
    lines = ["option read_window 64", "lane", f"fs_read {digits(path)} {LARGE_DOWN}", "step 0", "flush", "take"]
    return "\n".join(lines + (["step 0"] * 64 + ["flush"] + ["take"] * 64) * (LARGE_DOWN // 261120 // 64 + 2)) + "\n"


def lanes_in_rounds(folder):
    """Lanes that make a directory each, and write, read and look at files of five bytes there, without turns."""
    lines = []
    for lane in range(THREAD_LANES):
        home = f"{folder}d{lane}"
        lines += ["lane", "mkdir " + digits(home)]
        for k in range(THREAD_ROUNDS):
            name = digits(f"{home}/{k}")
            lines += [f"fs_write {name} 68656c6c6f", f"fs_read {name} 9", f"stat {name}"]
    return "\n".join(lines) + "\n"


def whole_reads(path, reads):
    """One lane that reads a file so often, each time to its end."""
    return "\n".join(["lane", "stat " + digits(path)] + [f"fs_read {digits(path)} {WHOLE_BYTES}"] * reads) + "\n"


def lanes_of_stats(path, lanes):
    """SWITCH_STATS requests for the attributes of a path, the same number in each lane."""
    return f"lane\n{(f'stat {digits(path)}' + chr(10)) * (SWITCH_STATS // lanes)}" * lanes


# ---- measuring

def measure(folder, command, text):
    """The seconds, the greatest memory in MiB, and the voluntary context switches of a command that reads this text; None if it failed."""
    path = os.path.join(folder, "input")
    with open(path, "w") as f:
        f.write(text)
    with open(path) as source:
        start = time.monotonic()
        child = subprocess.Popen(command, stdin=source, stdout=subprocess.DEVNULL, stderr=subprocess.DEVNULL)
        timer = threading.Timer(LIMIT, child.kill)
        timer.start()
        _, status, usage = os.wait4(child.pid, 0)
        seconds = time.monotonic() - start
        timer.cancel()
    child.returncode = status
    return (seconds, usage.ru_maxrss / 1024, usage.ru_nvcsw) if status == 0 else None


def best(folder, command, text, times=9):
    """The quickest of some runs, since a short one varies."""
    runs = [measure(folder, command, text) for _ in range(times)]
    return min(runs) if all(runs) else None


def row(words, result, before=None):
    """Prints a line of a table, with its ratio to the line before; gives the result back."""
    told = "failed, or over the limit" if result is None else f"{result[0]:10.2f} s {result[1]:9.1f} MiB"
    if result and before:
        told += f"   x {result[0] / before[0]:.2f} time, x {result[1] / before[1]:.2f} memory"
    print(f"{words:62} {told}", flush=True)
    return result


# ---- a server, late or not

def serve_late(path, short):
    """A server for each connection, whose bytes come late both ways, and whose DATA are short or not."""
    program = os.path.join(os.path.dirname(path), "late_server")
    if not os.path.exists(program):
        subprocess.run(["cc", "-O2", "-o", program, os.path.join(ROOT, "tools", "late_server.c")], check=True)
    words = [path, f"{DELAY * 1000:.0f}", str(SHORT_DATA if short else 0), SERVER]
    child = subprocess.Popen([program] + words, stderr=subprocess.DEVNULL)
    atexit.register(child.kill)
    while not os.path.exists(path):
        if child.poll() is not None:
            sys.exit(f"bench: the late server ended with {child.returncode} before it listened at {path}")
        time.sleep(0.01)


def serve(path, late, short=False):
    """Listens at a path: a server for each connection."""
    if late:
        return serve_late(path, short)
    listener = socket.socket(socket.AF_UNIX)
    listener.bind(path)
    listener.listen()

    def each():
        while True:
            link, _ = listener.accept()
            subprocess.Popen([SERVER], stdin=link, stdout=link, stderr=subprocess.DEVNULL)
            link.close()

    threading.Thread(target=each, daemon=True).start()


# ---- tables

def table_of_growth(folder, sizes):
    """The core alone, and runs over the server in memory."""
    print("the core alone")
    before = None
    for n in sizes:
        before = row(f"{n} requests", best(folder, [LOAD, str(n)], ""), before)
    print("over the server in memory")
    before = None
    for n in sizes:
        script = read_script(["a"] * n, "file 61 68656c6c6f")
        before = row(f"{n} lanes", measure(folder, [PROGRAM, "script"], script), before)


def table_of_views(folder):
    """Many reads through a cache: of as many blocks as it keeps, and of all blocks in turn, so that none is kept long enough. A
    block that isn't kept takes three requests, OPEN, READ and CLOSE, and as many replies; one that is kept takes none."""
    print(f"{GETS} gets of {VIEW_BLOCK} bytes of a file of {VIEWED_BYTES}, {VIEW_CAPACITY} blocks kept")
    file = f"file {digits('a')} " + bytes((k * 7 + k // 256) % 256 for k in range(VIEWED_BYTES)).hex()
    for words, blocks in (("of one block", 1), ("of the blocks that are kept", VIEW_CAPACITY), ("of all blocks in turn", VIEWED_BYTES // VIEW_BLOCK)):
        gets = [f"get {digits('a')} {k % blocks * VIEW_BLOCK} {VIEW_BLOCK}" for k in range(GETS)]
        text = "\n".join([file] + gets) + "\n"
        command = [VIEWER, "view", str(VIEW_BLOCK), str(VIEW_CAPACITY)]
        told = subprocess.run(command, input=text.encode(), capture_output=True, timeout=LIMIT).stdout.decode().split("\n")
        counts = {line.split()[0]: int(line.split()[1]) for line in told if line.startswith(("hits ", "misses "))}
        row(f"{words}: {counts['hits']} hits, {counts['misses'] * 6} frames", best(folder, command, text))


def table_over_a_server(folder, sizes, names, late):
    """Files over OpenSSH's server, by the program and by `sftp -b`."""
    print("over OpenSSH's server" + (f", each way {DELAY * 1000:.0f} ms late" if late else ""))
    path = os.path.join(folder, "late" if late else "socket")
    serve(path, late)

    def ours(words, script, before=None):
        return row(words, measure(folder, [PROGRAM, "unix", path], script), before)

    def theirs(words, lines, before=None):
        sftp = ["sftp", "-q", "-b", "-", "-D", f"socat - UNIX-CONNECT:{path}"]
        return row(words + ", sftp -b", measure(folder, sftp, "".join(line + "\n" for line in lines)), before)

    before = None
    for n in sizes:
        before = ours(f"{n} files", read_script(names[:n]), before)
    before = None
    for n in sizes[:1] if late else sizes:
        before = theirs(f"{n} files", [f"get {name} /dev/null" for name in names[:n]], before)

    local = made(folder, "local", FILE_BYTES)
    sent = [os.path.join(folder, f"sent{k}") for k in range(FILES)]
    words = f"{FILES} files of {FILE_BYTES} bytes"
    ours(words + " up", files_up(sent))
    ours(words + " down", files_down(sent))
    theirs(words + " up", [f"put {local} {name}" for name in sent])
    theirs(words + " down", [f"get {name} /dev/null" for name in sent])

    large, local_large = made(folder, "large", LARGE_DOWN), made(folder, "local-large", LARGE_UP)
    sent_large = os.path.join(folder, "sent-large")
    ours(f"{LARGE_UP} bytes up", large_up(sent_large))
    theirs(f"{LARGE_UP} bytes up", [f"put {local_large} {sent_large}"])
    ours(f"{LARGE_DOWN} bytes down", large_down(large))
    theirs(f"{LARGE_DOWN} bytes down", [f"get {large} /dev/null"])
    table_of_copies(folder, path, large)


def tables_of_copies(folder):
    """Copies alone, over a server and over a late one."""
    for late in (False, True):
        print("over OpenSSH's server" + (f", each way {DELAY * 1000:.0f} ms late" if late else ""))
        path = os.path.join(folder, "late" if late else "socket")
        serve(path, late)
        table_of_copies(folder, path, made(folder, "large", LARGE_DOWN))
        if not late:
            table_of_files(folder, path, made(folder, "huge", HUGE_BYTES), HUGE_BYTES)
            table_of_trees(folder, path)


def table_of_short_data(folder):
    """A large file down from a late server, whose DATA are as long as asked for or have SHORT_DATA bytes at most."""
    large = made(folder, "large", LARGE_DOWN)
    copied = os.path.join(folder, "copied")
    for short in (False, True):
        path = os.path.join(folder, "short" if short else "full")
        serve(path, True, short)
        data = f"DATA of {SHORT_DATA} bytes" if short else "full DATA"
        row(f"{LARGE_DOWN} bytes down, {data}, sftp_transfer", best(folder, [COPIER, "unix:" + path, "get", large, copied], "", 3))
        row(f"{LARGE_DOWN} bytes down, {data}, sftp -b", best(folder, client_of(path), f"get {large} {copied}\n", 3))
    asks = ["-B", str(SHORT_DATA), "-R", "1000"]
    words = f"{LARGE_DOWN} bytes down, DATA of {SHORT_DATA} bytes, sftp -b {' '.join(asks)}"
    row(words, best(folder, client_of(path) + asks, f"get {large} {copied}\n", 3))


def client_of(path):
    """`sftp` over the server that listens at a path."""
    return ["sftp", "-q", "-b", "-", "-D", f"socat - UNIX-CONNECT:{path}"]


def table_of_files(folder, path, large, length):
    """A large file from one file to another, by sftp_transfer and by `sftp`."""
    copied = os.path.join(folder, "copied")
    for words, way in (("down", "get"), ("up", "put")):
        words = f"{length} bytes {words}, file to file"
        row(words + ", sftp_transfer", best(folder, [COPIER, "unix:" + path, way, large, copied], "", 3))
        row(words + ", sftp -b", best(folder, client_of(path), f"{way} {large} {copied}\n", 3))


def copy_tree(folder, path, tree, words):
    """A folder and all that stands in it, by sftp_transfer and by `sftp -r`, down and up."""
    copied = os.path.join(folder, "copied-tree")
    for to, way in (("down", "get"), ("up", "put")):
        for name, command, text in (
            ("sftp_transfer", [COPIER, "unix:" + path, way, "-r", "-q", tree + "/.", copied], ""),
            ("sftp -r", client_of(path), f"{way} -r {tree} {copied}\n"),
        ):
            shutil.rmtree(copied, ignore_errors=True)
            row(f"{words} {to}, {name}", measure(folder, command, text))


def table_of_copies(folder, path, large):
    """A large file, and a folder of small ones, over OpenSSH's server."""
    table_of_files(folder, path, large, LARGE_DOWN)
    tree = os.path.join(folder, "tree")
    os.makedirs(tree, exist_ok=True)
    for k in range(TREE_FILES):
        made(tree, str(k), TREE_BYTES)
    copy_tree(folder, path, tree, f"{TREE_FILES} files of {TREE_BYTES} bytes")


def table_of_counts(folder):
    """More and more small files in one directory, down from a late server: a line `files N sftp_transfer S sftp S` for each."""
    path = os.path.join(folder, "late")
    serve(path, True)
    copied = os.path.join(folder, "copied-count")
    for count in COUNTS:
        tree = os.path.join(folder, f"count-{count}")
        os.makedirs(tree)
        for k in range(count):
            made(tree, str(k), TREE_BYTES)
        seconds = []
        for command, text in (
            ([COPIER, "unix:" + path, "get", "-r", "-q", tree + "/.", copied], ""),
            (client_of(path), f"get -r {tree} {copied}\n"),
        ):
            shutil.rmtree(copied, ignore_errors=True)
            seconds.append(measure(folder, command, text)[0])
        print(f"files {count} sftp_transfer {seconds[0]:.2f} sftp {seconds[1]:.2f}", flush=True)


def table_of_trees(folder, path):
    """Trees of many folders over OpenSSH's server: what doubles with them."""
    for folders in TREE_FOLDERS:
        tree = os.path.join(folder, f"tree-{folders}")
        for k in range(folders):
            within = os.path.join(tree, str(k))
            os.makedirs(within)
            for j in range(FOLDER_FILES):
                made(within, str(j), TREE_BYTES)
        copy_tree(folder, path, tree, f"{folders * FOLDER_FILES} files in {folders} folders")


def table_of_threads(folder):
    """The same lanes by one driver and by threads, whose session stands behind a lock, over the server in memory and over OpenSSH's. In
    memory sftp_share answers all requests a second time, by its replay. Each run over OpenSSH's server is in a folder of its own."""
    calls = 1 + 3 * THREAD_ROUNDS
    print(f"{THREAD_LANES} lanes of {calls} calls")
    row("in memory, one driver", best(folder, [PROGRAM, "script"], lanes_in_rounds("")))
    row("in memory, threads, and the replay", best(folder, [SHARER], lanes_in_rounds("")))
    path = os.path.join(folder, "threads")
    serve(path, False)
    for words, program in (("one driver", PROGRAM), ("threads", THREADED)):
        runs = []
        for _ in range(9):
            runs.append(measure(folder, [program, "unix", path], lanes_in_rounds(tempfile.mkdtemp(dir=folder) + "/")))
        row(f"over OpenSSH's server, {words}", min(runs) if all(runs) else None)


def table_of_switches(folder):
    """How often threads give up their processor, for each request, as the lanes become more; beside one driver of the same lanes."""
    print(f"{SWITCH_STATS} STATs over OpenSSH's server: voluntary context switches for each request")
    path = os.path.join(folder, "switches")
    serve(path, False)
    for lanes in SWITCH_LANES:
        for words, program in (("one driver", PROGRAM), ("threads", THREADED)):
            result = best(folder, [program, "unix", path], lanes_of_stats(folder, lanes), 3)
            switches = "failed" if result is None else f"{result[0]:10.2f} s {result[2] / SWITCH_STATS:9.2f} switches"
            print(f"{f'{lanes} lanes, {words}':62} {switches}", flush=True)


def table_of_receipts(folder):
    """The memory of whole reads in a session that threads share, by a program that prints numbers alone: what a read gave stands in its
    outcome, in the journal and in a receipt."""
    print(f"whole reads of {WHOLE_BYTES} bytes over OpenSSH's server, by threads")
    path = os.path.join(folder, "receipts")
    serve(path, False)
    large, before = made(folder, "whole", WHOLE_BYTES), None
    for reads in (0, 1, 2, 4):
        before = row(f"{reads} reads", best(folder, [THREADED, "counts", path], whole_reads(large, reads), 3), before)


def table_of_servers(folder):
    """OpenSSH's client over the server in memory, and over OpenSSH's own, whose files are in a folder of the disk."""
    print("OpenSSH's client over either server")
    local, got = made(folder, "served-local", SERVED_BYTES), os.path.join(folder, "served-got")
    files = [line for k in range(SERVED_FILES) for line in (f"put {local} f{k}", f"get f{k} {got}", f"rm f{k}")]
    directories = [line for k in range(SERVED_DIRECTORIES) for line in (f"mkdir d{k}", f"rmdir d{k}")]
    limits = "'server limits 262144 261120 261120 0'"
    within = os.path.join(folder, "served")
    os.mkdir(within)
    for words, lines in (
        (f"{SERVED_FILES} files of {SERVED_BYTES} bytes up and down", files),
        (f"{SERVED_DIRECTORIES} directories made and removed", directories),
    ):
        for name, server, before in (("in memory", f"{OUR_SERVER} {limits}", []), ("OpenSSH's", SERVER, [f"cd {within}"])):
            text = "".join(line + "\n" for line in before + lines)
            row(f"{words}, {name}", best(folder, ["sftp", "-q", "-D", server, "-b", "-"], text, 3))


def made(folder, name, length):
    """A file of so many bytes."""
    path = os.path.join(folder, name)
    with open(path, "wb") as f:
        f.truncate(length)
    return path


def main_of_threads():
    """The tables of threads alone."""
    for needed in (PROGRAM, SHARER, THREADED, SERVER):
        if not os.access(needed, os.X_OK):
            sys.exit(f"bench: {needed} is missing")
    with tempfile.TemporaryDirectory() as folder:
        table_of_threads(folder)
        table_of_switches(folder)
        table_of_receipts(folder)


def main():
    if sys.argv[1:] == ["threads"]:
        return main_of_threads()
    if sys.argv[1:] == ["copies"]:
        with tempfile.TemporaryDirectory() as folder:
            return tables_of_copies(folder)
    if sys.argv[1:] == ["short"]:
        with tempfile.TemporaryDirectory() as folder:
            return table_of_short_data(folder)
    if sys.argv[1:] == ["counts"]:
        with tempfile.TemporaryDirectory() as folder:
            return table_of_counts(folder)
    first = int(sys.argv[1]) if len(sys.argv) > 1 else 5000
    last = int(sys.argv[2]) if len(sys.argv) > 2 else 40000
    sizes = [first]
    while sizes[-1] * 2 <= last:
        sizes.append(sizes[-1] * 2)
    for program in (LOAD, PROGRAM, OUR_SERVER, COPIER, VIEWER, SHARER, THREADED):
        if not os.access(program, os.X_OK):
            sys.exit(f"bench: {program} is missing: run 'rt ci' first")
    # each lane holds a handle of the server
    most = resource.getrlimit(resource.RLIMIT_NOFILE)[1]
    resource.setrlimit(resource.RLIMIT_NOFILE, (most, most))
    with tempfile.TemporaryDirectory() as folder:
        table_of_growth(folder, sizes)
        table_of_views(folder)
        missing = [tool for tool in (SERVER, "sftp", "socat") if not shutil.which(tool)]
        if missing:
            sys.exit(f"bench: no comparison with sftp, missing: {' '.join(missing)}")
        table_of_servers(folder)
        table_of_threads(folder)
        table_of_switches(folder)
        table_of_receipts(folder)
        names = [os.path.join(folder, str(k)) for k in range(sizes[-1])]
        for name in names:
            with open(name, "w") as f:
                f.write("hello")
        for late in (False, True):
            table_over_a_server(folder, sizes, names, late)
        table_of_short_data(folder)


if __name__ == "__main__":
    main()
