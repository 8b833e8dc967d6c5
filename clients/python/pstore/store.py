"""A store in a file."""

from __future__ import annotations

import subprocess
from contextlib import contextmanager
from typing import Iterator, List, Optional, Sequence, Tuple, Union

from .drafts import Draft
from .errors import LineRefusal, NotFound, PstoreError, Refusal, TransactionsMissing, end_of, file_refusal_of, refusal_of
from .folders import Folder
from .messages import Message
from .program import find_program
from .replies import ListedFolder
from .session import Lines, Session
from .spelling import spell
from .tags import Tag, tag_of
from .views import View

ROOT = 0x122
"""The folder above all others."""

TOP = 0x8022
"""The folder with the user's own, in stores that this program or Outlook laid."""

TOP_NAMES = ("top of personal folders", "top of outlook data file", "top of information store")

Path = Union[str, Sequence[str]]


def answer(words: List[str]) -> str:
    """What the program says to words that begin no session. The file is the word behind the first."""
    done = subprocess.run(words, stdin=subprocess.DEVNULL, capture_output=True)
    said, text = done.stdout.decode("utf-8").strip(), done.stderr.decode("utf-8", "replace").strip()
    if said.startswith("refused "):
        raise file_refusal_of(words[2], said.partition(" ")[2], text)
    if said.startswith("no "):
        raise refusal_of(" ".join(words[1:]), said.partition(" ")[2])
    if done.returncode:
        raise end_of(done.returncode, text)
    return said


def decode(path: str, to: str, program: Optional[str] = None) -> int:
    """Writes a copy of a file of Outlook whose blocks aren't encoded, so that a store can be opened in it. `to` has no bytes before. Says how many blocks were encoded."""
    return int(answer([find_program(program), "decode", path, to]).split(" ")[1])


def compact(path: str, to: str, program: Optional[str] = None) -> int:
    """Writes the tree of a store to `to`, which has no bytes before, in a file without holes. Says how many bytes that has."""
    return int(answer([find_program(program), "compact", path, to]).split(" ")[1])


def mend(path: str, program: Optional[str] = None) -> Tuple[int, int]:
    """Makes the lists of searches anew that another program left stale, so that a store can be opened again. Says how many lists those were, and how many searches of the first version were turned into such of the second."""
    _, stale, _, migrated = answer([find_program(program), "mend", path]).split(" ")
    return int(stale), int(migrated)


def fill(path: str, seed: int, count: int, program: Optional[str] = None) -> Tuple[int, int]:
    """Makes a large input to try a store with: the folder `Fill SEED` with so many messages, from 1 to 2,000, and the search `Find SEED` over it. Says how many messages the search lists, and how many bytes those of the folder have."""
    said = answer([find_program(program), "fill", path, str(seed), str(count)]).split(" ")
    return int(said[3]), int(said[5])


class Tree:
    """The folders and messages of a store, as lines of a session tell them.

    Paths of folders, as `Inbox/Lists`, begin at the top of the user's folders, and with a `/` at the root above it. A
    slash in a name is written `\\/`; a list of names needs no such care.
    """

    session: Lines
    root: Folder
    top: Folder
    rollbacks = 0
    """How many transactions were rolled back. What was asked before the last of them may not be so any more."""

    def folder(self, path: Path = "") -> Folder:
        """The folder at a path."""
        found, names = self._begin(path)
        for name in names:
            found = found.child(name)
        return found

    def make_folder(self, path: Path) -> Folder:
        """The folder at a path, made with those above it as far as it isn't there."""
        found, names = self._begin(path)
        for name in names:
            try:
                found = found.child(name)
            except NotFound:
                found = found.make(name)
        return found

    def _begin(self, path: Path) -> Tuple[Folder, List[str]]:
        names = split_path(path) if isinstance(path, str) else list(path)
        return (self.root if isinstance(path, str) and path.startswith("/") else self.top), names

    def walk(self, folder: Optional[Folder] = None) -> Iterator[Tuple[List[str], Folder, List[Message]]]:
        """A folder and all below it, a parent before its children, each with the names that lead to it and its messages."""
        yield from self._walk([], folder or self.top)

    def _walk(self, names: List[str], folder: Folder) -> Iterator[Tuple[List[str], Folder, List[Message]]]:
        folders, messages = folder.entries()
        yield names, folder, messages
        for it in folders:
            yield from self._walk([*names, it.name], it)

    def message(self, ident: int) -> Message:
        """A message by its id, wherever it is."""
        return Message(self, ident)

    def write(self, draft: Draft, folder: Folder) -> Message:
        """Sends the lines of a whole mail. Should one be refused, the message goes again.

        Each line is a commit of its own, but within `Store.transaction`, which makes all of them one.
        """
        ident = self.session.ask(f"new 0x{folder.id:x} {draft.class_word} {draft.time}").id
        message = Message(self, ident)
        try:
            for attachment in draft.attachments:
                message.attach(attachment.name, attachment.data)
            self.session.ask_all(draft.lines(ident))
        except Refusal:
            try:
                message.remove()
            except Refusal:
                pass  # The first refusal says more.
            raise
        return message


class Store(Tree):
    """A store in a file, over one session of the program."""

    session: Session

    def __init__(self, path: str, program: Optional[str] = None) -> None:
        self._open("run", path, program)

    @classmethod
    def look(cls, path: str, program: Optional[str] = None) -> "Store":
        """Opens a store for reading alone: nothing is written, and a file that can't be written will do."""
        store = cls.__new__(cls)
        store._open("look", path, program)
        return store

    @classmethod
    def create(cls, path: str, name: str = "Mail", program: Optional[str] = None) -> "Store":
        """Lays a new store in a file that has no bytes, and opens it."""
        answer([find_program(program), "new", path, spell(name)])
        return cls(path, program)

    def _open(self, word: str, path: str, program: Optional[str]) -> None:
        self.path = path
        self._in_transaction = False
        self.session = Session([word, path], program)
        try:
            self.root = Folder(self, ListedFolder(ROOT, "folder", ""))
            self.top = self._find_top()
        except PstoreError:
            try:
                self.session.close()
            except PstoreError:
                pass
            raise

    def _find_top(self) -> Folder:
        """The folder that holds the user's.

        Which one it is stands in a value that no line reads, so it goes by its usual id, then by its usual names.
        """
        folders = [it for it in self.root.folders() if it.kind == "folder"]
        usual = [it for it in folders if it.id == TOP] or [it for it in folders if it.name.lower() in TOP_NAMES]
        return (usual or [self.root])[0]

    def pin(self) -> "Pin":
        """Keeps the store readable as it is now, whatever changes from here on. At most 16 pins are open at a time."""
        return Pin(self, int(self.session.ask("pin").rest))

    def view(self, folder: Folder, tag: Union[str, int, Tag], descending: bool = False) -> View:
        """Opens a view of a folder or a search folder: its messages, sorted by a column of its table. At most 16 views are open at a time."""
        column = tag_of(tag)
        asked = f"view 0x{folder.id:x} {column} {'down' if descending else 'up'}"
        return View(self, int(self.session.ask(asked).rest), column)

    @contextmanager
    def transaction(self) -> Iterator[None]:
        """Makes what is done within one commit of the file: all of it is there once the `with` ends, or nothing.

        An exception that leaves it rolls back what was done, and so does a commit that finds no memory. Folders and
        messages that were made within aren't there then. `save` and pins have to wait for the end. At most one
        transaction is open at a time, and of a line that was sent ahead the reply is to be looked at within:

            with store.transaction():
                for draft in drafts:
                    inbox.add(draft)
        """
        if self._in_transaction:
            raise RuntimeError("a transaction is open already, and none can stand in another")
        try:
            self.session.ask("begin")
        except LineRefusal as refusal:
            raise TransactionsMissing("the session has no transactions: it only looks, or the program is older than this package") from refusal
        self._in_transaction = True
        try:
            yield
            self.session.ask("commit")
        except BaseException:
            self._roll_back()
            raise
        finally:
            self._in_transaction = False

    def _roll_back(self) -> None:
        self.rollbacks += 1
        try:
            self.session.ask("rollback")
        except PstoreError:
            pass  # The session has ended, and the transaction with it. What led here says more.

    def save(self) -> None:
        """Writes the allocation maps, so that other readers need not rebuild them."""
        self.session.ask("save")

    def close(self) -> None:
        """Ends the session, and waits for the program."""
        self.session.close()

    def __enter__(self) -> "Store":
        return self

    def __exit__(self, kind: object, error: object, trace: object) -> None:
        self.session.__exit__(kind, error, trace)


class Pin(Tree):
    """A store as it was when the pin was made, whatever was changed since, for as long as the session goes on or until `unpin`.

    Folders and messages are those of that moment, and are read as those of a store. What would change them is refused
    as `LineRefusal`, and reading them after the end of the pin as `NoPin`. The places that it keeps in the file are
    free again only then, so a pin is best ended once it was read:

        with store.pin() as then:
            for message in then.folder("Inbox").messages():
                print(message.subject)
    """

    def __init__(self, store: Store, number: int) -> None:
        self.store, self.number = store, number
        self.session = store.session.at(number)
        self.root, self.top = (Folder(self, ListedFolder(it.id, it.kind, it.name)) for it in (store.root, store.top))
        self._ended = False

    def __repr__(self) -> str:
        return f"<Pin {self.number}>"

    def unpin(self) -> None:
        """Ends the pin."""
        self._ended = True
        self.store.session.ask(f"unpin {self.number}")

    def __enter__(self) -> "Pin":
        return self

    def __exit__(self, kind: object, error: object, trace: object) -> None:
        if self._ended:
            return
        try:
            self.unpin()
        except PstoreError:
            if error is None:
                raise


def split_path(path: str) -> List[str]:
    """The names that a path is made of."""
    names, name, escaped = [], "", False
    for it in path:
        if escaped or it not in "\\/":
            name, escaped = name + it, False
        elif it == "\\":
            escaped = True
        else:
            names, name = [*names, name], ""
    return [it for it in [*names, name] if it]


def join_path(names: Sequence[str]) -> str:
    """A path of names."""
    return "/".join(it.replace("\\", "\\\\").replace("/", "\\/") for it in names)
