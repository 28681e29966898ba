"""Folders that a daemon with --data refuses. Each function gives rows for scripts/daemon: a name, whether it is right, and
what was seen."""
import contextlib
import os
import shutil
import sqlite3
import subprocess
import tempfile

from daemon_clients import Daemon, connect, run, talk

FOLDERS = 3
ITEM = b"VALUE kept 0 1\r\n1\r\nEND\r\n"
NOT_WRITTEN = "cannot be opened or written"
OTHER_SITE = "data of another site than that of the other folders"
# Root may write to every file, but not without these capabilities.
LIMITED = ["setpriv", "--bounding-set=-dac_override,-dac_read_search"] if os.geteuid() == 0 else []
# Of a folder that has data: what a mode keeps it from.
UNWRITABLE = [("a folder that cannot be entered", "", 0), ("a file that cannot be written", "eve.db", 0o400),
              ("a log that cannot be written", "eve.db-wal", 0o400)]


def words_of(paths):
    return [word for path in paths for word in ("--data", path)]


def refused(what, program, words, said, before=()):
    """The row of a daemon that ends with status 4, and says this."""
    status, out, err = run(*before, program, "--listen", "127.0.0.1:0", "--u", "0", *words)
    return what, status == 4 and out == "" and f"{said}\n" in err, (status, out, err)


def kept(what, program, paths):
    """The row of a daemon that finds the item which was stored in these folders."""
    with Daemon(program, "--u", "0", *words_of(paths)) as daemon, connect(daemon.ports[0]) as client:
        heard = talk(client, b"get kept\r\n", ITEM)
        daemon.process.kill()
    return f"{what}: the item is kept", heard == ITEM, heard


def filled(program, place, count):
    """So many new folders of one daemon, in which it has stored an item. Nobody uses them any more."""
    os.mkdir(place)
    paths = [f"{place}/{at}" for at in range(count)]
    for path in paths:
        os.mkdir(path)
    with Daemon(program, "--u", "0", *words_of(paths), "--new") as daemon, connect(daemon.ports[0]) as client:
        talk(client, b"set kept 0 0 1\r\n1\r\n", b"STORED\r\n")
        daemon.process.kill()
    return paths


def file_of(folder):
    with open(f"{folder}/eve.db", "rb") as file:
        return file.read()


def noted(folder, version):
    """A copy of the folder in which SQLite has noted this version of the tables, in the log: it would close by moving the
    log into the file, where each page has a sum that SQLite does not write."""
    opened, copy = f"{folder}-opened-{version}", f"{folder}-{version}"
    shutil.copytree(folder, opened)
    with contextlib.closing(sqlite3.connect(f"{opened}/eve.db")) as db:
        db.execute(f"PRAGMA user_version = {version}")
        shutil.copytree(opened, copy, ignore=shutil.ignore_patterns("*-shm"))
    return copy


def later_version(program, work):
    (folder,) = filled(program, f"{work}/later", 1)
    later = noted(folder, 2)
    yield refused("a later version", program, words_of([later]), f"{later}: made by a later version of this program")
    yield kept("a later version, and its own again", program, [noted(later, 1)])


def unchanged(what, program, folder, said):
    """Rows of a folder that is refused, also at a first start, and whose file stays as it is."""
    before = file_of(folder)
    yield refused(what, program, words_of([folder]), f"{folder}: {said}")
    yield refused(f"{what}, with --new", program, [*words_of([folder]), "--new"], f"{folder}: {said}")
    yield f"{what}: it is as it was", file_of(folder) == before, len(before)


def other_programs(program, work):
    """A database of another program, and a file that is none."""
    for name in ("other", "text"):
        os.mkdir(f"{work}/{name}")
    with contextlib.closing(sqlite3.connect(f"{work}/other/eve.db")) as db:
        db.execute("CREATE TABLE note (text)")
    yield from unchanged("a database of another program", program, f"{work}/other", "a database of another program")
    with open(f"{work}/text/eve.db", "wb") as file:
        file.write(b"no database\n" * 1000)
    yield from unchanged("no database", program, f"{work}/text", "damaged")


def is_limited():
    """Whether root can be kept from writing everywhere."""
    with contextlib.suppress(OSError):
        return not LIMITED or subprocess.run([*LIMITED, "true"], capture_output=True, check=False).returncode == 0
    return False


def unwritable(program, work):
    if not is_limited():
        print("data: what cannot be written is left out, since nothing keeps root from writing here", flush=True)
        return
    new = f"{work}/unwritable"
    os.mkdir(new, 0o500)
    yield refused("a folder that cannot be written", program, [*words_of([new]), "--new"], f"{new}: {NOT_WRITTEN}", LIMITED)
    (folder,) = filled(program, f"{work}/written", 1)
    for what, name, mode in UNWRITABLE:
        file = os.path.normpath(f"{folder}/{name}")
        before = os.stat(file).st_mode & 0o777
        os.chmod(file, mode)
        yield refused(what, program, words_of([folder]), f"{folder}: {NOT_WRITTEN}", LIMITED)
        os.chmod(file, before)
    yield kept("it can be written again", program, [folder])


def other_folders(program, work):
    """Some of three folders, a folder that was the only one, and one of another site."""
    paths, others = (filled(program, f"{work}/site{at}", FOLDERS) for at in range(2))
    for count in (1, 2):
        yield refused(f"{count} of three folders", program, words_of(paths[:count]), f"{paths[0]}: made with 3 folders")
    (single,) = filled(program, f"{work}/single", 1)
    yield refused("a folder that was the only one", program, words_of([single, *paths[1:]]), f"{single}: made with 1 folder")
    yield refused("a folder of another site", program, words_of([*paths[:2], others[2]]), OTHER_SITE)
    for name, each in (("another site", others), ("three folders", paths)):
        yield kept(name, program, each)


def rows(program):
    """All rows, one after the other."""
    with tempfile.TemporaryDirectory() as work:
        for part in (later_version, other_programs, unwritable, other_folders):
            yield from part(program, work)
