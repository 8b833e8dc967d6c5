"""Mails into a folder of a store, each by one transaction: as a whole or not at all."""

from __future__ import annotations

from dataclasses import dataclass, field
from typing import Iterable, Iterator, List, Optional, Set

from .drafts import Draft
from .errors import FullRefusal, IdsRefusal, NotFound, Refusal, TransactionLimitRefusal
from .folders import Folder
from .mail_files import MailFile
from .mime_in import MailTooLarge, draft_of, message_id_of
from .store import Store

STAGING = "pstore-mail import"
"""The folder below the root in which a mail stands until it is whole, where it is too large for one transaction."""


@dataclass
class Imported:
    """What came of an import. A mail is new once its commit was answered."""

    new: int = 0
    there: int = 0
    failed: List[str] = field(default_factory=list)

    @property
    def seen(self) -> int:
        return self.new + self.there + len(self.failed)


class Importer:
    """Puts mails into a folder.

    Each mail is one transaction, so whoever stops an import finds no half of a mail. One that is too large for that is
    made line by line in a folder of its own, and moved once it is whole; what a stop left there goes with the next
    import. A mail whose Message-ID the folder has is passed over, so that an import which was stopped goes on where it
    was.
    """

    def __init__(self, store: Store, folder: Folder) -> None:
        self._store, self._folder = store, folder
        self._staging: Optional[Folder] = None
        self._there: Set[str] = set()

    def __enter__(self) -> "Importer":
        try:
            self._staging = self._store.root.child(STAGING)
            for it in self._staging.messages():
                it.remove()
        except NotFound:
            pass
        messages = self._folder.messages()
        self._there = {str(it) for (it,) in self._folder.values(messages, "message_id") if it}
        return self

    def __exit__(self, kind: object, error: object, trace: object) -> None:
        if error is None and self._staging is not None:
            self._staging.remove()

    def run(self, mails: Iterable[MailFile]) -> Iterator[Imported]:
        """Puts mails into the folder, and tells after each of them how far it is."""
        done = Imported()
        for it in mails:
            try:
                self._put(it, done)
            except (FullRefusal, IdsRefusal):
                raise  # Each other mail would meet the same.
            except (Refusal, MailTooLarge) as error:
                done.failed.append(f"{it.origin}: {error}")
            yield done

    def _put(self, mail: MailFile, done: Imported) -> None:
        ident = message_id_of(mail.raw)
        if ident in self._there:
            done.there += 1
            return
        draft = draft_of(mail.raw, mail.read, mail.flagged, mail.replied)
        try:
            with self._store.transaction():
                self._store.write(draft, self._folder)
        except (TransactionLimitRefusal, FullRefusal):
            self._put_by_lines(draft)  # A transaction is asked for three times the room of what it writes.
        self._there.add(ident)
        done.new += 1

    def _put_by_lines(self, draft: Draft) -> None:
        """Puts a mail into the folder by a commit a line, the last of which moves it there."""
        if self._staging is None:
            self._staging = self._store.root.make(STAGING)
        self._store.write(draft, self._staging).move(self._folder)
