"""Folders of a store."""

from __future__ import annotations

from typing import TYPE_CHECKING, Iterable, Iterator, List, Optional, Tuple, Union

from .codepages import decoded
from .errors import NotFound, PropertyRefusal, Refusal
from .messages import Message
from .replies import ListedFolder, ListedMessage, Reply, listed
from .spelling import spell
from .tags import BYTE_TEXT, TEXT, Tag, Value, tag_of, value_of
from .valued import candidates

if TYPE_CHECKING:
    from .drafts import Draft
    from .store import Tree


class Folder:
    """A folder. `kind` is `folder`, `search` for a search folder, or `foreign` for one of another program."""

    def __init__(self, store: "Tree", listing: ListedFolder) -> None:
        self.store, self.id, self.kind, self.name = store, listing.id, listing.kind, listing.name

    def __repr__(self) -> str:
        return f"<Folder 0x{self.id:x} {self.name!r}>"

    def entries(self) -> Tuple[List["Folder"], List[Message]]:
        """The folders in this one, and its messages, each by ascending ids."""
        folders, messages = [], []
        for line in self.store.session.ask(f"ls 0x{self.id:x}").data:
            it = listed(line)
            if isinstance(it, ListedMessage):
                messages.append(Message(self.store, it.id, it))
            else:
                folders.append(Folder(self.store, it))
        return folders, messages

    def folders(self) -> List["Folder"]:
        return self.entries()[0]

    def messages(self) -> List[Message]:
        return self.entries()[1]

    def child(self, name: str) -> "Folder":
        """The folder in this one that has a name, of either case where none has just this one."""
        folders = self.folders()
        found = [it for it in folders if it.name == name] or [it for it in folders if it.name.casefold() == name.casefold()]
        if not found:
            raise NotFound(f"{self.name or 'the root'} holds no folder {name!r}")
        return found[0]

    def make(self, name: str) -> "Folder":
        """Makes a folder in this one."""
        ident = self._ask("mkdir", spell(name)).id
        return Folder(self.store, ListedFolder(ident, "folder", name))

    def make_search(self, name: str) -> "Folder":
        """Makes a search folder without criteria in this one."""
        ident = self._ask("mksearch", spell(name)).id
        return Folder(self.store, ListedFolder(ident, "search", name))

    def search(self, flags: int, scope: Iterable["Folder"], restriction: bytes) -> None:
        """Gives this search folder its criteria."""
        folders = ",".join(f"0x{it.id:x}" for it in scope)
        self._ask("criteria", f"0x{flags:x} {folders} {restriction.hex()}")

    def rename(self, name: str) -> None:
        self._ask("rename", spell(name))
        self.name = name

    def move(self, parent: "Folder") -> None:
        """Moves this folder with all in it into another one."""
        self._ask("mvdir", f"0x{parent.id:x}")

    def remove(self) -> None:
        """Removes this folder, which must be empty."""
        self.store.session.ask(f"rmdir 0x{self.id:x}")

    def add(self, draft: "Draft") -> Message:
        """Makes a message in this folder."""
        return self.store.write(draft, self)

    def values(self, messages: List[Message], *names: Union[str, int, Tag]) -> Iterator[List[Optional[Value]]]:
        """For each of some messages its values by these names, None where there is none.

        Asks for all of them ahead, so text in a code page is read by the one that fits and not by the one that the
        message says.
        """
        asked = [[it for name in names for it in candidates(tag_of(name))] for _ in messages]
        lines = (f"get 0x{message.id:x} {tag}" for message, tags in zip(messages, asked) for tag in tags)
        answers = self.store.session.pipeline(lines)
        for _ in messages:
            yield [self._first(answers, tag_of(name)) for name in names]

    @staticmethod
    def _first(answers: Iterator[Union[Reply, Refusal]], wanted: Tag) -> Optional[Value]:
        """The value under the first of a property's kinds that a message has."""
        found = None
        for tag in candidates(wanted):
            answer = next(answers)
            if isinstance(answer, Refusal):
                if not isinstance(answer, PropertyRefusal):
                    raise answer
            elif found is None:
                found = value_of(tag.kind, answer.rest)
                if tag.kind == BYTE_TEXT and wanted.kind == TEXT:
                    found = decoded(found, None)[0]
        return found

    def _ask(self, word: str, rest: str) -> Reply:
        return self.store.session.ask(f"{word} 0x{self.id:x} {rest}")
