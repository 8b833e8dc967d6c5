"""Views of a store: a folder's messages, sorted and grouped by a column."""

from __future__ import annotations

from typing import TYPE_CHECKING, List, Optional, Tuple

from .errors import NoView, ProtocolError, PstoreError
from .messages import Message
from .tags import Tag, Value, value_of

if TYPE_CHECKING:
    from .store import Store


class View:
    """A folder's messages in the order of one column, for as long as the session goes on, or until `close` or the end of the folder.

    What it tells is always what the folder holds just then, and asking it reads the folder's table. Text is sorted and
    grouped without regard to case, and a message without a value of the column, which is None, stands below all others:

        with store.view(inbox, "received", descending=True) as newest:
            for message, received in newest.rows():
                print(received, message.subject)
    """

    def __init__(self, store: "Store", number: int, tag: Tag) -> None:
        self.store, self.number, self.tag = store, number, tag
        self._closed = False

    def __repr__(self) -> str:
        return f"<View {self.number}>"

    def rows(self) -> List[Tuple[Message, Optional[Value]]]:
        """The messages, each with its value of the column."""
        rows = []
        for line in self.store.session.ask(f"rows {self.number}").data:
            ident, _, said = line.partition(" ")
            try:
                rows.append((Message(self.store, int(ident, 16)), self._value(said)))
            except ValueError as error:
                raise ProtocolError(f"no line of rows: {line}") from error
        return rows

    def groups(self) -> List[Tuple[Optional[Value], int]]:
        """The values that differ, each as the first of its messages has it, and how many messages have it."""
        groups = []
        for line in self.store.session.ask(f"groups {self.number}").data:
            said, _, count = line.rpartition(" ")
            try:
                groups.append((self._value(said), int(count)))
            except ValueError as error:
                raise ProtocolError(f"no line of groups: {line}") from error
        return groups

    def close(self) -> None:
        """Closes the view."""
        self._closed = True
        self.store.session.ask(f"unview {self.number}")

    def __enter__(self) -> "View":
        return self

    def __exit__(self, kind: object, error: object, trace: object) -> None:
        if self._closed:
            return
        try:
            self.close()
        except NoView:
            pass  # Its folder was removed, and the view with it.
        except PstoreError:
            if error is None:
                raise

    def _value(self, said: str) -> Optional[Value]:
        if not said:
            raise ValueError("no value")
        return None if said == "none" else value_of(self.tag.kind, said)
