"""What can go wrong, as exceptions: one class for each refusal that the program says, and for each way a session ends."""

from __future__ import annotations

from typing import Dict, Sequence, Type


class PstoreError(Exception):
    """Whatever this package raises of itself."""


class ProgramMissing(PstoreError):
    """No `pstore` program was found."""


class TransactionsMissing(PstoreError):
    """The session has no transactions: it is one of `look`, or of a program older than this package."""


class ProtocolError(PstoreError):
    """The program said what is no reply."""


class NotFound(PstoreError):
    """No folder or attachment goes by the name that was given."""


class Refusal(PstoreError):
    """A line was refused, and changed nothing. `kind` is the refusal's name, `detail` what follows it, as two numbers of `full`."""

    kind = ""
    kinds: Dict[str, Type["Refusal"]] = {}

    def __init_subclass__(cls) -> None:
        Refusal.kinds[cls.kind] = cls

    def __init__(self, line: str, kind: str, detail: Sequence[str] = ()) -> None:
        self.line, self.kind, self.detail = line, kind, list(detail)
        super().__init__(f"no {' '.join([kind, *detail])}: {shortened(line)}")


class LimitRefusal(Refusal):
    """Something would pass a limit."""

    kind = "limit"


class LineLimitRefusal(LimitRefusal):
    """The line has more than 1,048,576 bytes."""

    kind = "limit line"


class DepthLimitRefusal(LimitRefusal):
    """More than 64 folders would stand above a folder."""

    kind = "limit depth"


class RowLimitRefusal(LimitRefusal):
    """A table would get too many rows, or a node would grow too large to be written."""

    kind = "limit rows"


class NestingLimitRefusal(LimitRefusal):
    """Messages would stand too deep in one another: a subnode below level 8 of the outermost."""

    kind = "limit nesting"


class PropertyLimitRefusal(LimitRefusal):
    """An object would get more than 1,000 values."""

    kind = "limit properties"


class ValueLimitRefusal(LimitRefusal):
    """An attachment would get more than 8,000,000 bytes."""

    kind = "limit value"


class SearchLimitRefusal(LimitRefusal):
    """64 searches have criteria already."""

    kind = "limit searches"


class PinLimitRefusal(LimitRefusal):
    """16 pins are open, or the session has given all numbers of pins."""

    kind = "limit pins"


class ViewLimitRefusal(LimitRefusal):
    """16 views are open, or the session has given all numbers of views."""

    kind = "limit views"


class TransactionLimitRefusal(LimitRefusal):
    """The transaction would have more than 16,384 blocks. It stays open, without the line."""

    kind = "limit transaction"


class NameLimitRefusal(LimitRefusal):
    """There is no room for another named property."""

    kind = "limit names"


class LineRefusal(Refusal):
    """The line is none of the forms, or the program doesn't know it."""

    kind = "line"


class NoPin(Refusal):
    """No pin of that number is open."""

    kind = "pin"


class NoView(Refusal):
    """No view of that number is open."""

    kind = "view"


class ValueRefusal(Refusal):
    """A name, class or address isn't 1 to 255 UTF-16 units, or a value isn't one of its kind."""

    kind = "value"


class ObjectRefusal(Refusal):
    """No folder or message has that id, no recipient that row, or no attachment that id."""

    kind = "object"


class ReservedRefusal(Refusal):
    """The folder is a search folder, or of another program, where the line takes none such."""

    kind = "reserved"


class NoEmbedded(Refusal):
    """The attachment holds no message."""

    kind = "embedded"


class ProtectedRefusal(Refusal):
    """The folder or the value is one that no line changes."""

    kind = "protected"


class FlagsRefusal(Refusal):
    """Flags of a search that aren't there, or that don't go together."""

    kind = "flags"


class RestrictionRefusal(Refusal):
    """The bytes are no restriction."""

    kind = "restriction"

    @property
    def at(self) -> int:
        """The offset of the first byte at fault."""
        return int(self.detail[0])


class ScopeRefusal(Refusal):
    """A search is to look in a folder twice, or in what is no plain folder."""

    kind = "scope"


class CriteriaRefusal(Refusal):
    """What is to be kept of a search's criteria isn't there."""

    kind = "criteria"


class ColumnRefusal(Refusal):
    """The folder's table has no such column, or it is of a kind by which nothing is sorted."""

    kind = "column"


class CycleRefusal(Refusal):
    """A folder would stand in itself."""

    kind = "cycle"


class NotEmptyRefusal(Refusal):
    """The folder holds something."""

    kind = "not-empty"


class PropertyRefusal(Refusal):
    """There is no value of that id and kind."""

    kind = "property"


class NameTakenRefusal(Refusal):
    """The folder holds another folder of that name."""

    kind = "name-taken"


class IdsRefusal(Refusal):
    """No id is left."""

    kind = "ids"


class FullRefusal(Refusal):
    """The file has no room for the line."""

    kind = "full"

    @property
    def free(self) -> int:
        """How many cells of 8192 bytes the file has room for."""
        return int(self.detail[0])

    @property
    def need(self) -> int:
        """How many such cells the line could need."""
        return int(self.detail[1])


class MemoryRefusal(Refusal):
    """There was no memory for the line; the next may find some."""

    kind = "memory"


class FileRefusal(PstoreError):
    """The program refused the file, and wrote nothing. `kind` is the refusal's name, `detail` what follows it."""

    kind = ""
    kinds: Dict[str, Type["FileRefusal"]] = {}

    def __init_subclass__(cls) -> None:
        FileRefusal.kinds[cls.kind] = cls

    def __init__(self, path: str, kind: str, detail: Sequence[str] = (), advice: str = "") -> None:
        self.path, self.kind, self.detail, self.advice = path, kind, list(detail), advice
        said = f"{path}: refused {' '.join([kind, *detail])}"
        super().__init__(f"{said} ({advice or self.__doc__.rstrip('.')})")


class EmptyFile(FileRefusal):
    """The file has no bytes, or isn't there."""

    kind = "empty"


class GateRefused(FileRefusal):
    """FILE.gate isn't the small file that belongs beside this one."""

    kind = "gate"


class ShortFile(FileRefusal):
    """The file is too short for a header."""

    kind = "short"


class NotPst(FileRefusal):
    """The file is no Personal Folders File."""

    kind = "not-pst"


class VersionRefused(FileRefusal):
    """The file is of another version than the Unicode one, 23."""

    kind = "version"


class CrcRefused(FileRefusal):
    """A checksum of the header is wrong."""

    kind = "crc"


class EncodedFile(FileRefusal):
    """The file's blocks are encoded: `decode` writes a copy in which they aren't."""

    kind = "encoded"


class TruncatedFile(FileRefusal):
    """The file is cut short."""

    kind = "truncated"


class LargeFile(FileRefusal):
    """The file is larger than 8192 regions."""

    kind = "large"


class PageFault(FileRefusal):
    """A page of a tree is at fault."""

    kind = "page"


class BlockFault(FileRefusal):
    """A block is at fault."""

    kind = "block"


class MissingBlock(FileRefusal):
    """A block that is named isn't there."""

    kind = "missing"


class NodeFault(FileRefusal):
    """A node is at fault."""

    kind = "node"


class Overlap(FileRefusal):
    """Two blocks or pages share a place."""

    kind = "overlap"


class TreeFault(FileRefusal):
    """Folders and tables don't fit together."""

    kind = "tree"


class StaleSearch(FileRefusal):
    """The list of a search folder isn't what looking at all messages gives."""

    kind = "stale"


class IdsSpent(FileRefusal):
    """The file's block or page numbers are spent."""

    kind = "ids"


class FileNotEmpty(FileRefusal):
    """A new store is laid only where neither FILE nor FILE.gate has bytes, and a copy only where there are none."""

    kind = "not-empty"


class BusyFile(FileRefusal):
    """Another session is at work on the file."""

    kind = "busy"


class SessionEnded(PstoreError):
    """The program ended before it answered.

    `status` is its exit status, negative for a signal, and `text` what it said on standard error.
    """

    status = 0
    statuses: Dict[int, Type["SessionEnded"]] = {}

    def __init_subclass__(cls) -> None:
        SessionEnded.statuses[cls.status] = cls

    def __init__(self, status: int, text: str) -> None:
        self.status, self.text = status, text
        super().__init__(f"the program ended with status {status}: {text or 'it said nothing'}")


class WordsRefused(SessionEnded):
    """The program knows no such words."""

    status = 2


class DiskFailed(SessionEnded):
    """A disk call failed. The file holds what it held before or after the line in hand."""

    status = 4


class InputFailed(SessionEnded):
    """Reading the lines failed."""

    status = 5


class OutputFailed(SessionEnded):
    """Saying a reply failed."""

    status = 6


class NoMemory(SessionEnded):
    """There was no memory for the session."""

    status = 7


class LinesSpent(SessionEnded):
    """The session took as many lines as one may."""

    status = 8


class FileChanged(SessionEnded):
    """What was read or written of the file changed since."""

    status = 9


def refusal_of(line: str, said: str) -> Refusal:
    """The exception for a reply that begins with `no`, without that word."""
    kind, *detail = said.split(" ")
    if kind == "limit":
        kind, detail = " ".join([kind, *detail[:1]]), detail[1:]
    return Refusal.kinds.get(kind, LimitRefusal if kind.startswith("limit") else Refusal)(line, kind, detail)


def file_refusal_of(path: str, said: str, advice: str = "") -> FileRefusal:
    """The exception for a line that begins with `refused`, without that word."""
    kind, *detail = said.split(" ")
    return FileRefusal.kinds.get(kind, FileRefusal)(path, kind, detail, advice)


def end_of(status: int, text: str) -> SessionEnded:
    """The exception for the end of a session that answers no more."""
    return SessionEnded.statuses.get(status, SessionEnded)(status, text)


def shortened(line: str, most: int = 80) -> str:
    """A line as a message can hold it."""
    return line if len(line) <= most else f"{line[:most - 2]}.."
