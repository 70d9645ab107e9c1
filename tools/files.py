"""files.py: why a tool ends, and files that are read and written whole.

All tools share it; it knows nothing of a plant."""
import difflib
import errno
import functools
import hashlib
import json
import os
import pickle
import shutil
import tomllib

OUTPUT, MEMORY = 6, 13  # exit statuses that mean the same as the program's: the output cannot be written, there is no memory
BUSY, CHANGED, UNREADABLE = 20, 21, 22  # of the tools; the program's own are 2 to 16
OUTSIDE = 23  # audit.py: a value outside of what is promised
REFUSED = 24  # rows were refused, or a file of the inbox is not taken; the good rows are stored
AWAY = 25  # site.py: a worker or the scheduler of another machine is away


class Refusal(Exception):
    """Why a tool ends: its exit status, and what it says to the person."""

    def __init__(self, status, text):
        super().__init__(text)
        self.status, self.text = status, text

    def __reduce__(self):
        return Refusal, (self.status, self.text)  # so that it can go from a process to another one


def shown(text, most=64):
    """A name or a field as it may be printed: no longer than `most` characters, and with control characters spelt out, so that it can
    neither end a line nor steer a terminal."""
    cut = "".join(c if c.isprintable() else c.encode("unicode_escape", "surrogatepass").decode() for c in text[:most])
    return cut + ".." if len(text) > most else cut


def nearest(name, names):
    """What a misspelt name may mean, as words for the end of a line; nothing if no name is near."""
    plain = {str(other).lower(): other for other in names}
    found = difflib.get_close_matches(name.lower(), list(plain), 1)
    return "; did you mean %s?" % shown(plain[found[0]]) if found else ""


@functools.lru_cache(64)
def tables_in(data):
    """The tables of a TOML text, pickled, so that each reader gets its own. A site reads a text several times, and most parts have their base
    twice."""
    return pickle.dumps(tomllib.loads(data.decode()))


def read_toml(path):
    """The tables of a TOML text."""
    try:
        return pickle.loads(tables_in(bytes_of(path)))
    except OSError as why:
        raise Refusal(UNREADABLE, "%s cannot be read: %s" % (path, why.strerror)) from None
    except (tomllib.TOMLDecodeError, UnicodeDecodeError, RecursionError) as why:
        raise Refusal(UNREADABLE, "%s is no TOML: %s" % (path, why)) from None


def bytes_of(path):
    """The bytes of a file."""
    with open(path, "rb") as data:
        return data.read()


def sha256_of(path):
    """The sha256 of a file's bytes."""
    with open(path, "rb") as data:
        return hashlib.file_digest(data, "sha256").hexdigest()


def sha256_of_next(opened, size, sha=None):
    """A sha256 that has the next bytes of an open file, behind those that it has already; None if there are not so many."""
    sha = sha or hashlib.sha256()
    while size:
        part = opened.read(min(size, 1 << 20))
        if not part:
            return None
        sha.update(part)
        size -= len(part)
    return sha


def write_whole(path, data):
    """Puts a file in its place whole and synced: after a stop at any moment the old or the new bytes stand there."""
    with open(path + ".new", "wb") as out:
        out.write(data)
        out.flush()
        os.fsync(out.fileno())
    os.replace(path + ".new", path)
    sync_folder(os.path.dirname(path))


def copied(source, target):
    """Copies a file and syncs the copy."""
    shutil.copy2(source, target)
    with open(target, "rb") as data:
        os.fsync(data.fileno())


def json_text(table):
    """A table as JSON, with a line for each of its entries and for each entry of those: Python's own indented form takes ten times as long."""
    return block_of(table, lambda value: block_of(value, json.dumps)) + "\n"


def block_of(value, text_of):
    """A table or a list with a line for each entry; anything else in one line."""
    if isinstance(value, dict) and value:
        return "{\n" + ",\n".join("%s: %s" % (json.dumps(key), text_of(entry)) for key, entry in value.items()) + "\n}"
    if isinstance(value, list) and value:
        return "[\n" + ",\n".join(map(text_of, value)) + "\n]"
    return json.dumps(value)


def moved(source, target):
    """Moves a file, also to another disk: there a synced copy stands before the file is removed. After a stop it may be repeated; a file
    that is gone by then was moved."""
    try:
        os.rename(source, target)
    except FileNotFoundError:
        if not os.path.lexists(target):
            raise
    except OSError as why:
        if why.errno != errno.EXDEV:
            raise
        copied(source, target)
        sync_folder(os.path.dirname(target))
        os.remove(source)


def removed(path):
    """Removes a file that may be gone already."""
    try:
        os.remove(path)
    except FileNotFoundError:
        pass


def sync_read(handle):
    """Makes the bytes of a file that somebody else wrote durable, where its disk can do that."""
    try:
        os.fsync(handle)
    except OSError as why:
        if why.errno not in (errno.EINVAL, errno.EROFS, errno.ENOTSUP):
            raise


def sync_folder(folder):
    """Makes the names in a folder durable."""
    handle = os.open(folder, os.O_RDONLY)
    try:
        os.fsync(handle)
    finally:
        os.close(handle)
