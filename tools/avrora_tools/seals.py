"""Sums of results: a plain one by which damage shows, and a seal by which a result is known to be of this user.

A file of results may come with a repository. So that it decides nothing, each row has a seal, which is made with a key
that lies in the user's own folder of state: without the key nobody makes one. Where the key cannot be kept it is good
for this process alone.
"""
import contextlib
import functools
import hashlib
import os
import secrets
from typing import Any

from avrora_tools.writing import Folder

KEY_FILE = "results.key"
KEY_BYTES = 32
SUM_BYTES, SEAL_BYTES = 8, 16


def folder_of_state() -> str:
    """Where this user's tools keep what belongs to no project. A name from where one stands counts for nothing: a
    stranger's folder may have a key there, by which its results would be believed."""
    named = os.environ.get("XDG_STATE_HOME", "")
    base = named if os.path.isabs(named) else os.path.expanduser("~/.local/state")
    return os.path.join(base, "avrora-tools")


@functools.cache
def key() -> bytes:
    """The key of this user, which is made where there is none."""
    path = folder_of_state()
    made = secrets.token_bytes(KEY_BYTES)
    if not os.path.isabs(path):  # as HOME is none
        return made
    with contextlib.suppress(OSError):
        os.makedirs(path, 0o700, exist_ok=True)
        with Folder(os.open(path, os.O_PATH | os.O_DIRECTORY | os.O_CLOEXEC), path) as folder:
            with contextlib.suppress(FileExistsError):
                new = os.open(KEY_FILE, os.O_WRONLY | os.O_CREAT | os.O_EXCL, 0o600, dir_fd=folder.descriptor)
                with open(new, "wb") as file:
                    file.write(made)
            with open(os.open(KEY_FILE, os.O_RDONLY | os.O_NOFOLLOW, dir_fd=folder.descriptor), "rb") as file:
                found = file.read(KEY_BYTES + 1)
            if len(found) == KEY_BYTES:
                return found
    return made


def text_of(record: tuple[Any, ...]) -> bytes:
    """A record as its sums are made of it: numbers, texts, bytes and None have one spelling each."""
    return repr(record).encode("utf-8", "surrogatepass")


def plain_sum(text: bytes) -> bytes:
    return hashlib.blake2b(text, digest_size=SUM_BYTES).digest()


def seal(text: bytes) -> bytes:
    return hashlib.blake2b(text, digest_size=SEAL_BYTES, key=key()).digest()
