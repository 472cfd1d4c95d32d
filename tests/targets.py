"""The path, the method and the query of a message (RFC 9110, section 9.1; RFC 3986, section 3.4): they are judged in this order, and before
the document."""

from harness import TWO_MARKS, Folder, get, hits, same
from refusals import BAD_DOCUMENT, MISSING, UNKNOWN_METHOD, UNKNOWN_PATH, all_refused
from samples import found, root

HOST = b" HTTP/1.1\r\nHost: h\r\n"
BODY = HOST + b"Content-Length: 3\r\n\r\n<a>"

REFUSED = [
    (b"GET /" + HOST + b"\r\n", UNKNOWN_PATH, "path"),
    (b"GET /wfs/" + HOST + b"\r\n", UNKNOWN_PATH, "path"),
    (b"GET /wfsd" + HOST + b"\r\n", UNKNOWN_PATH, "path"),
    (b"GET /WFS" + HOST + b"\r\n", UNKNOWN_PATH, "path"),
    (b"POST /x" + BODY, UNKNOWN_PATH, "path"),
    (b"PUT /x?y" + BODY, UNKNOWN_PATH, "path"),
    (b"PUT /wfs" + BODY, UNKNOWN_METHOD, "method"),
    (b"HEAD /wfs?a" + HOST + b"\r\n", UNKNOWN_METHOD, "method"),
    # A method is its letters and their case.
    (b"get /wfs?service=WFS&request=GetCapabilities" + HOST + b"\r\n", UNKNOWN_METHOD, "method"),
    (b"post /wfs" + BODY, UNKNOWN_METHOD, "method"),
    (b"POST /wfs" + BODY, BAD_DOCUMENT, "document"),
    (b"GET /wfs" + HOST + b"\r\n", MISSING, "service"),
    (b"GET /w%66s?a=b?c" + HOST + b"\r\n", MISSING, "service"),
    # The query of a POST and the body of a GET ask for nothing.
    (b"POST /wfs?service=WFS&request=GetCapabilities" + BODY, BAD_DOCUMENT, "document"),
    (b"GET /wfs?service=WFS" + BODY, MISSING, "request"),
]


def test_the_path_the_method_and_the_query_are_judged_in_order():
    with Folder() as folder:
        all_refused(folder, lambda message: message, REFUSED)


def test_a_query_is_all_after_the_first_question_mark():
    with Folder() as folder:
        _, counted, paged = folder.ask(TWO_MARKS, hits("typeNames=m:Mark"), get("service=WFS&request=GetFeature&typeNames=Mark&foo=b?c&startIndex=1"))
        same(counted.matched, 2)
        same(found(paged), "Mark.2")
        same('previous="http://localhost:8080/wfs?service=WFS&amp;request=GetFeature&amp;typeNames=Mark&amp;foo=b%3Fc&amp;startIndex=0&amp;count=1"' in paged.body, True, repr(paged))


def test_an_escape_in_the_path_is_the_letter():
    with Folder() as folder:
        (answer,) = folder.ask(b"GET /%77f%73?service=WFS&request=GetCapabilities" + HOST + b"\r\n")
        same(root(answer), "wfs:WFS_Capabilities")
