"""Who may come in: passwords, of which a file has salted hashes, a token, and what is open."""

from __future__ import annotations

import base64
import getpass
import hashlib
import hmac
import os
import re
import secrets
import stat
import sys
from typing import Dict, NamedTuple, Optional, Tuple

# scrypt takes 16 MiB of memory and some 50 ms with these.
COST, BLOCK, PARALLEL, MOST_MEMORY = 16384, 8, 1, 64 * 1024 * 1024
GREATEST_COST = 32768
HASH = re.compile(
    r"([^\s:]{1,40}):scrypt:([0-9]{1,6}):([0-9]{1,2}):([0-9]):([A-Za-z0-9+/=]{8,88}):([A-Za-z0-9+/=]{24,88})"
)
LEAST_LETTERS, LEAST_TOKEN, MOST_LETTERS = 8, 20, 200
OPEN_SECONDS, MOST_OPEN = 12 * 3600.0, 64


class Hash(NamedTuple):
    """A password as it is kept."""

    cost: int
    block: int
    parallel: int
    salt: bytes
    hash: bytes

    def is_of(self, password: str) -> bool:
        made = scrypt(password, self.salt, self.cost, self.block, self.parallel)
        return hmac.compare_digest(made, self.hash)


def scrypt(password: str, salt: bytes, cost: int, block: int, parallel: int) -> bytes:
    return hashlib.scrypt(
        password.encode("utf-8"), salt=salt, n=cost, r=block, p=parallel, maxmem=MOST_MEMORY, dklen=32
    )


def line_of(name: str, password: str) -> str:
    """The line of a file of hashes. Raises ValueError where the name or the password is none."""
    if not re.fullmatch(r"[^\s:]{1,40}", name):
        raise ValueError("a name has 1 to 40 letters, no space and no colon")
    if not LEAST_LETTERS <= len(password) <= MOST_LETTERS:
        raise ValueError(f"a password has {LEAST_LETTERS} to {MOST_LETTERS} letters")
    salt = os.urandom(16)
    made = scrypt(password, salt, COST, BLOCK, PARALLEL)
    salt_text, hash_text = (base64.b64encode(it).decode() for it in (salt, made))
    return f"{name}:scrypt:{COST}:{BLOCK}:{PARALLEL}:{salt_text}:{hash_text}"


def read_hashes(text: str) -> Dict[str, Hash]:
    """The passwords of a file, by the name of who has each. Raises ValueError at a line that is none."""
    found: Dict[str, Hash] = {}
    for number, line in enumerate(text.splitlines(), 1):
        if not line.strip() or line.startswith("#"):
            continue
        row = HASH.fullmatch(line)
        if not row or int(row[2]) > GREATEST_COST or row[1] in found:
            raise ValueError(f"line {number}: it is none that page.py --hash NAME makes, or NAME stands twice")
        salt, made = (base64.b64decode(it, validate=True) for it in (row[5], row[6]))
        found[row[1]] = Hash(int(row[2]), int(row[3]), int(row[4]), salt, made)
    if not found:
        raise ValueError("it has no line that page.py --hash NAME makes")
    return found


def read_token(path: str) -> str:
    """The token in a file that its owner alone can read. Raises ValueError and OSError."""
    with open(path, encoding="ascii") as file:
        if os.fstat(file.fileno()).st_mode & (stat.S_IRWXG | stat.S_IRWXO):
            raise ValueError("others can read it: chmod 600")
        token = file.read(MOST_LETTERS + 1).strip()
    if not LEAST_TOKEN <= len(token) <= MOST_LETTERS or not token.isprintable() or " " in token:
        raise ValueError(f"a token has {LEAST_TOKEN} to {MOST_LETTERS} letters, and no space")
    return token


class Doors:
    """The passwords and the token, and whom a door is open for. Without both all may come in."""

    def __init__(self, hashes: Dict[str, Hash], token: str) -> None:
        self.hashes, self.token = hashes, token
        self.nobody = read_hashes(line_of("nobody", secrets.token_hex(16)))["nobody"] if hashes else None
        self.open: Dict[bytes, Tuple[str, float]] = {}

    def is_locked(self) -> bool:
        return bool(self.hashes or self.token)

    def who(self, name: str, password: str) -> Optional[str]:
        """Who this is, or None. It takes the same time for a name that nobody has."""
        if self.is_token(password):
            return "token"
        kept = self.hashes.get(name, self.nobody)
        if not kept or len(password) > MOST_LETTERS:
            return None
        return name if kept.is_of(password) and name in self.hashes else None

    def is_token(self, text: str) -> bool:
        return bool(self.token) and hmac.compare_digest(text.encode("utf-8"), self.token.encode("utf-8"))

    def let_in(self, who: str, now: float) -> str:
        """Opens a door for somebody; what is returned keeps it open."""
        key = secrets.token_urlsafe(32)
        if len(self.open) >= MOST_OPEN:
            del self.open[min(self.open, key=lambda it: self.open[it][1])]
        self.open[digest(key)] = who, now
        return key

    def holder(self, key: str, now: float) -> Optional[str]:
        """Whom a door is open for, which was used in the last twelve hours."""
        who, used = self.open.get(digest(key), ("", 0.0))
        if not who or now - used > OPEN_SECONDS:
            self.open.pop(digest(key), None)
            return None
        self.open[digest(key)] = who, now
        return who

    def shut(self, key: str) -> None:
        self.open.pop(digest(key), None)


def digest(key: str) -> bytes:
    return hashlib.sha256(key.encode("utf-8", "replace")).digest()


def print_line(name: str) -> None:
    """Asks for a password, and prints the line of it: twice on a terminal, else by a line of standard input."""
    if sys.stdin.isatty():
        password = getpass.getpass("Password: ")
        if getpass.getpass("The same again: ") != password:
            sys.exit("page.py: these were two passwords")
    else:
        password = sys.stdin.readline().rstrip("\n")
    try:
        print(line_of(name, password))
    except ValueError as error:
        sys.exit(f"page.py: {error}")
