"""A running `pstore` program: lines go in, replies come out, in order and as far ahead as the caller likes."""

from __future__ import annotations

import subprocess
import tempfile
import threading
from collections import deque
from concurrent.futures import Future
from typing import TYPE_CHECKING, Deque, Iterable, Iterator, List, Optional, Sequence, Tuple, Union

from .errors import PstoreError, ProtocolError, Refusal, end_of, file_refusal_of, refusal_of, shortened
from .program import find_program
from .replies import Reply

if TYPE_CHECKING:
    Pending = Future[Reply]
else:
    Pending = Future

LINE_BYTES = 1_048_576
"""How many bytes a line may have before its LF."""

AHEAD = 1000
"""How many lines `pipeline` sends before it takes the first reply. More would only keep more replies in memory."""


class Lines:
    """Lines, sent one by one or many ahead, and their replies."""

    def send(self, line: str) -> Pending:
        """Sends a line ahead. What is answered comes as a `Reply`, or as the exception of its refusal."""
        raise NotImplementedError

    def ask(self, line: str) -> Reply:
        """Sends a line and waits for its reply."""
        return self.send(line).result()

    def ask_all(self, lines: Iterable[str]) -> List[Reply]:
        """Sends lines ahead, and gives their replies.

        Where some are refused, the rest is answered all the same; then the first refusal is raised.
        """
        answers = list(self.pipeline(lines))
        for it in answers:
            if isinstance(it, Refusal):
                raise it
        return answers

    def pipeline(self, lines: Iterable[str]) -> Iterator[Union[Reply, Refusal]]:
        """Sends lines ahead, and gives what each is answered, refusals too, in order."""
        sent: Deque[Pending] = deque()
        for line in lines:
            sent.append(self.send(line))
            if len(sent) >= AHEAD:
                yield _answer(sent.popleft())
        while sent:
            yield _answer(sent.popleft())


class Session(Lines):
    """A program that answers lines.

    A thread reads what the program says as soon as it says it. So the program never waits for a reader, and a caller
    that sends many lines ahead can't come to wait for a program that waits for it.
    """

    def __init__(self, words: Sequence[str], program: Optional[str] = None) -> None:
        self._words = list(words)
        self._waiting: Deque[Tuple[str, Pending]] = deque()
        self._lock = threading.Lock()
        self._end: Optional[PstoreError] = None
        self._refused = ""
        self._closed = False
        self._errors = tempfile.TemporaryFile()
        self._process = subprocess.Popen(
            [find_program(program), *words], stdin=subprocess.PIPE, stdout=subprocess.PIPE, stderr=self._errors
        )
        self._reader = threading.Thread(target=self._read, name="pstore replies", daemon=True)
        self._reader.start()

    def send(self, line: str) -> Pending:
        """Sends a line ahead. What is answered comes as a `Reply`, or as the exception of its refusal."""
        pending: Pending = Future()
        raw = line.encode("utf-8") + b"\n"
        with self._lock:
            if self._closed:
                raise PstoreError("the session has ended")
            if self._end is not None:
                raise self._end
            self._waiting.append((line, pending))
            try:
                self._process.stdin.write(raw)
                self._process.stdin.flush()
            except OSError:
                pass  # The program is gone. The reader learns why, and tells all who wait.
        return pending

    def at(self, pin: int) -> "PinnedLines":
        """The lines that a pin answers."""
        return PinnedLines(self, pin)

    def close(self) -> None:
        """Ends the session with `quit` and waits for the program.

        Raises what it ended with, if that was neither told before nor a good end.
        """
        if self._closed:
            return
        told = self._end is not None
        if not told:
            try:
                self.send("quit")
            except PstoreError:
                pass
        self._closed = True
        try:
            self._process.stdin.close()
        except OSError:
            pass
        self._reader.join()
        status = self._process.wait()
        self._process.stdout.close()
        text = self._said()
        self._errors.close()
        if not told and status:
            raise self._end if self._refused else end_of(status, text)

    def __enter__(self) -> "Session":
        return self

    def __exit__(self, kind: object, error: object, trace: object) -> None:
        try:
            self.close()
        except PstoreError:
            if error is None:
                raise

    def _read(self) -> None:
        """Takes replies until the program says no more, and then tells all who wait why."""
        try:
            self._take_replies()
        except (OSError, UnicodeDecodeError, PstoreError) as error:
            self._process.kill()
            end: PstoreError = error if isinstance(error, PstoreError) else ProtocolError(str(error))
        else:
            status = self._process.wait()
            path = self._words[-1]
            end = file_refusal_of(path, self._refused, self._said()) if self._refused else end_of(status, self._said())
        # A sender that waits for a full pipe holds the lock, and is let go by the end of the program.
        with self._lock:
            self._end = end
            waiting, self._waiting = self._waiting, deque()
        for _, pending in waiting:
            pending.set_exception(end)

    def _take_replies(self) -> None:
        data: List[str] = []
        for raw in self._process.stdout:
            line = raw.decode("utf-8").rstrip("\n")
            first, _, rest = line.partition(" ")
            if first == "-":
                data.append(rest)
            elif first == "refused":
                self._refused = rest
            elif first in ("ok", "no") and self._waiting:
                asked, pending = self._waiting.popleft()
                if first == "ok":
                    pending.set_result(Reply(data, rest))
                else:
                    pending.set_exception(refusal_of(asked, rest))
                data = []
            else:
                raise ProtocolError(f"no reply: {shortened(line)}")

    def _said(self) -> str:
        """What the program said on standard error, as one line."""
        self._errors.seek(0)
        return "; ".join(self._errors.read().decode("utf-8", "replace").split("\n")).strip("; ")


class PinnedLines(Lines):
    """The lines of a session as one of its pins answers them: `ls`, `get`, `props`, `fetch` and `getcriteria`. All others are refused."""

    def __init__(self, session: Session, pin: int) -> None:
        self._session, self._pin = session, pin

    def send(self, line: str) -> Pending:
        return self._session.send(f"at {self._pin} {line}")


def _answer(pending: Pending) -> Union[Reply, Refusal]:
    try:
        return pending.result()
    except Refusal as refusal:
        return refusal
