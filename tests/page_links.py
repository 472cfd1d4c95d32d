"""The links of a page to the one after it and to the one before it: the query anew, without what said the page before (OGC 09-025r2, section
7.7.4; the URL Standard, section 5.2, for the spelling of a query)."""

import html
import re

from harness import Folder, get, same
from key_values import PLACES, features_by
from samples import SCHEMA, features, found

# How a link begins.
LINK = "http://localhost:8080/wfs?service=WFS&request=GetFeature&"

# What is asked of seven marks, after `service=WFS&request=GetFeature&`; and what follows the beginning of the link to the page after it, and
# of the link to the page before it.
LINKS = [
    ("typeNames=Mark&count=2&startIndex=4", "typeNames=Mark&startIndex=6&count=2", "typeNames=Mark&startIndex=2&count=2"),
    ("COUNT=2&typeNames=m:Mark&startindex=&count=", "typeNames=m%3AMark&startIndex=2&count=2", None),
    ("typeNames=Mark&foo&startIndex=1", None, "typeNames=Mark&foo=&startIndex=0&count=1"),
    ("typeNames=Mark&&x=a%20b+c&=y&startIndex=1", None, "typeNames=Mark&x=a+b+c&=y&startIndex=0&count=1"),
    ("typeNames=Mark&x=%7e*-._~&count=1&startIndex=5", "typeNames=Mark&x=%7E*-._%7E&startIndex=6&count=1", "typeNames=Mark&x=%7E*-._%7E&startIndex=4&count=1"),
    ("typeNames=Mark&x=%C3%9F%26&startIndex=1", None, "typeNames=Mark&x=%C3%9F%26&startIndex=0&count=1"),
    ("typeNames=Mark&counts=1&startIndex=1", None, "typeNames=Mark&counts=1&startIndex=0&count=1"),
    ("typeNames=Mark&x=%FF%2&startIndex=1", None, "typeNames=Mark&x=%EF%BF%BD%252&startIndex=0&count=1"),
    ("typeNames=Mark&bbox=1,2,3,4&count=1&sortBy=size%20DESC", "typeNames=Mark&bbox=1%2C2%2C3%2C4&sortBy=size+DESC&startIndex=1&count=1", None),
    # No page is left; a page of none; what is only counted.
    ("typeNames=Mark&count=7", None, None),
    ("typeNames=Mark&count=0&startIndex=1", None, None),
    ("typeNames=Mark&count=2&startIndex=1", "typeNames=Mark&startIndex=3&count=2", "typeNames=Mark&startIndex=0&count=1"),
    ("typeNames=Mark&resultType=hits&count=2&startIndex=4", None, None),
]


def link(answer, name: str):
    """A link of a collection; None where it has none."""
    said = re.search(r' %s="([^"]*)"' % name, answer.body)
    return said and html.unescape(said[1])


def test_the_links_of_a_page():
    with Folder(SCHEMA) as folder:
        answers = folder.ask(PLACES, *[features_by(query) for query, _, _ in LINKS])[1:]
        for (query, after, before), answer in zip(LINKS, answers):
            same(link(answer, "next"), after and LINK + after, query)
            same(link(answer, "previous"), before and LINK + before, query)


def test_other_requests_have_no_links():
    with Folder(SCHEMA) as folder:
        _, posted, taken = folder.ask(PLACES, features("<Query typeNames='Mark'/>", "startIndex='2' count='2'"), get("service=WFS&request=GetFeatureWithLock&typeNames=Mark&startIndex=2&count=2"))
        for answer in (posted, taken):
            same((found(answer), link(answer, "next"), link(answer, "previous")), ("Mark.3 Mark.4", None, None))
