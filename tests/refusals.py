"""The table of refusals: what each says, with its status and its code (docs/FORMATS.md)."""

from harness import same

BAD_DOCUMENT = "bad document"
MISPLACED = "misplaced or malformed"
UNKNOWN_OPERATION = "unknown operation"
MISSING = "value missing"
REFUSED = "value refused"
OPTION = "option refused"
NO_VERSION = "no common version"
UNFIT = "value does not fit"
UNKNOWN_LOCK = "unknown lock"
EXPIRED = "lock has expired"
SEVERAL = "more than one feature"
NOT_FREE = "not all are free"
EXISTS = "query exists"
TWICE = "parameter twice"
NO_FEATURE = "no such feature"
NO_QUERY = "no such query"
UNKNOWN_PATH = "unknown path"
UNKNOWN_METHOD = "unknown method"
FULL = "full"

HEADS = {
    BAD_DOCUMENT: (400, "OperationParsingFailed"),
    MISPLACED: (400, "OperationParsingFailed"),
    UNKNOWN_OPERATION: (501, "OperationNotSupported"),
    MISSING: (400, "MissingParameterValue"),
    REFUSED: (400, "InvalidParameterValue"),
    OPTION: (501, "OptionNotSupported"),
    NO_VERSION: (400, "VersionNegotiationFailed"),
    UNFIT: (400, "InvalidValue"),
    UNKNOWN_LOCK: (400, "InvalidLockId"),
    EXPIRED: (403, "LockHasExpired"),
    SEVERAL: (400, "InvalidValue"),
    NOT_FREE: (409, "CannotLockAllFeatures"),
    EXISTS: (409, "DuplicateStoredQueryIdValue"),
    TWICE: (400, "DuplicateStoredQueryParameterName"),
    NO_FEATURE: (404, "InvalidParameterValue"),
    NO_QUERY: (400, "InvalidParameterValue"),
    UNKNOWN_PATH: (404, "NoApplicableCode"),
    UNKNOWN_METHOD: (501, "OperationNotSupported"),
    FULL: (503, "NoApplicableCode"),
}


def refusal(text: str, locator: str) -> tuple:
    """The status, the code, the locator and the text of a refusal, as `Answer.refusal` has them."""
    return HEADS[text] + (locator, text)


def all_refused(folder, message, table) -> None:
    """That each piece of a table, made into a message, is refused: by the text and with the locator of its row."""
    for (piece, text, locator), answer in zip(table, folder.ask(*[message(row[0]) for row in table])):
        same(answer.refusal, refusal(text, locator), piece)
