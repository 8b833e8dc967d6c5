"""Mail stores in .pst files, through the program `pstore`.

    from pstore import Store

    with Store("mail.pst") as store:
        for message in store.folder("Inbox").messages():
            print(message.sent, message.sender, message.subject)
"""

from .drafts import Draft, DraftAttachment
from .errors import FileRefusal, NotFound, PstoreError, Refusal, SessionEnded
from .folders import Folder
from .messages import Attachment, EmbeddedMessage, Message
from .replies import Recipient, Reply
from .session import Session
from .store import Pin, Store, compact, decode, fill, join_path, mend, split_path
from .tags import TAGS, Tag
from .views import View

__all__ = [
    "Attachment", "Draft", "DraftAttachment", "EmbeddedMessage", "FileRefusal", "Folder", "Message", "NotFound", "Pin", "PstoreError", "Recipient",
    "Refusal", "Reply", "Session", "SessionEnded", "Store", "TAGS", "Tag", "View", "compact", "decode", "fill", "join_path", "mend", "split_path",
]  # fmt: skip
__version__ = "1.0"
