"""What two servers answer differently, and in which circumstance."""
from dataclasses import dataclass
from enum import Enum


class When(Enum):
    """What else the tables of `rules` have to know of a difference."""
    KEPT = "kept"
    NOT_KEPT = "not to be kept"
    UNUSED_SLOT = "0 on a slot that was not used"
    BEFORE_RECLAIM_COMPLETE = "before RECLAIM_COMPLETE"
    A_TIME = "a time"
    IN_A_SESSION = "in a session"
    BEHIND_A_REFUSAL = "behind a refusal"
    OWNER_IN_DOUBT = "owner in doubt"
    BEYOND = "beyond 2^63"
    LEASE_OVER = "lease over"
    REMOVED_OPEN = "removed, open"
    MOVED = "moved"
    SIZE_OF_NO_FILE = "size of no file"
    ZERO_BYTE = "a zero byte in a name"
    NO_BYTES = "no bytes"
    NO_FILE = "no file"
    ANOTHER_USER = "another user"
    OWNER_OF_THE_FILE = "owner of the file"
    MODE_NOT_GIVEN = "mode not given"
    A_LINK = "a link"
    AS_IT_IS = "as it is"
    NOTHING_TO_DO = "nothing to do"
    ANOTHER_PARENT = "a directory gets another parent"
    NO_MEANING = "bits of no meaning"
    OWN_DENY = "own deny"
    EXCLUSIVE_ATTRIBUTES = "attributes of an exclusive create"
    EXCLUSIVE_AGAIN = "exclusive again"
    EXCLUSIVE = "exclusive"
    NOT_GIVEN = "not given"
    BELOW_SETGID = "below setgid"
    A_LINKS_MODE = "a link's mode"
    HELD = "held"


@dataclass
class Difference:
    """Something that the two answer differently: the operation, what of it, and both words."""
    operation: str
    what: str
    reference: str
    server: str
    step: int = 0
    at: int = 0
    verdict: str = "deviation"
    section: str = ""
    why: str = ""
    looked_up: bool = True
    when: When = None

    def __post_init__(self):
        self.reference, self.server = str(self.reference), str(self.server)

    @property
    def words(self):
        """What the tables go by, beside the circumstance."""
        operation = "attributes" if self.what.startswith(("attr ", "identity by ")) else self.operation
        return operation, self.what, self.reference, self.server

    @property
    def key(self):
        """What makes two differences one finding."""
        operation, what, *sides = self.words
        return operation, f"{what} ({self.when.value})" if self.when else what, *sides

    def __str__(self):
        operation, what, reference, server = self.key
        return f"{operation}, {what}: reference {reference}, server {server}"
