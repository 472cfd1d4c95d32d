"""How long a lock lives (OGC 09-025r2, sections 12.2.4 and 13.2.4): as long as `expiry` says, which a renewal may say anew, and not for two
seconds alone where nothing is said. Asked by documents and by queries."""

import time

from harness import Folder, get, rows, same
from samples import SCHEMA, document, found, inserted, locked, mark


def by_post(operation: str, number: int, period: str = "") -> bytes:
    """A request for a lock on a mark."""
    query = "<Query typeNames='Mark'><f:Filter><f:ResourceId rid='Mark.%d'/></f:Filter></Query>" % number
    return document("<%s service='WFS' %s>%s</%s>" % (operation, period and "expiry='%s'" % period, query, operation))


def renewal_by_post(lock: str, period: str = "") -> bytes:
    return document("<LockFeature service='WFS' lockId='%s' %s/>" % (lock, period and "expiry='%s'" % period))


def by_get(operation: str, number: int, period: str = "") -> bytes:
    return get("service=WFS&request=%s&typeNames=Mark&resourceId=Mark.%d&expiry=%s" % (operation, number, period))


def renewal_by_get(lock: str, period: str = "") -> bytes:
    return get("service=WFS&request=LockFeature&lockId=%s&expiry=%s" % (lock, period))


@rows(("documents", by_post, renewal_by_post), ("queries", by_get, renewal_by_get))
def test_locks_end_after_their_period_by(asked, renewed):
    requests = [
        asked("GetFeatureWithLock", 1, "2"),
        asked("GetFeatureWithLock", 2, "60"),
        asked("GetFeatureWithLock", 3),
        asked("LockFeature", 4, "2"),
        asked("LockFeature", 5, "4294967295"),
        asked("LockFeature", 6),
        asked("LockFeature", 7, "60"),
        asked("LockFeature", 8, "2"),
        asked("LockFeature", 9, "2"),
        renewed("lock-1-7", "2"),
        renewed("lock-1-8", "60"),
        renewed("lock-1-9"),
    ]
    with Folder(SCHEMA) as folder, folder.serve() as server, server.connect() as connection:
        connection.ask(inserted(*[mark("A")] * 9))
        answers = [connection.ask(message) for message in requests]
        same([found(answer) for answer in answers[:3]], ["Mark.1", "Mark.2", "Mark.3"])
        same([locked(answer)[0] for answer in answers[3:]], ["Mark.4", "Mark.5", "Mark.6", "Mark.7", "Mark.8", "Mark.9", "Mark.7", "Mark.8", "Mark.9"])
        time.sleep(2.1)
        free = connection.ask(document("<LockFeature service='WFS' lockAction='SOME'><Query typeNames='Mark'/></LockFeature>"))
        same(locked(free), ("Mark.1 Mark.4 Mark.7 Mark.9", "Mark.2 Mark.3 Mark.5 Mark.6 Mark.8"))
