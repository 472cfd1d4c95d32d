"""Folders that earlier versions wrote (tests/data/folders): the program opens a copy of each, and finds in it what was sent then."""

import json
import os
import re
import shutil
import xml.etree.ElementTree as tree

from harness import DONE, ROOT, Folder, get, post, rows, same

FOLDERS = os.path.join(ROOT, "tests", "data", "folders")
GML, WFS = "{http://www.opengis.net/gml/3.2}", "{http://www.opengis.net/wfs/2.0}"
BUILT_IN = "urn:ogc:def:query:OGC-WFS::GetFeatureById"


def asked(operation: str, pairs: str = "") -> bytes:
    return get("service=WFS&request=%s%s" % (operation, pairs and "&" + pairs))


def value_of(element):
    """A property's value: its text, or a geometry's kind and the positions of each of its lines."""
    if not len(element):
        return element.text or ""
    geometry = element[0]
    return [geometry.tag.replace(GML, "")] + [it.text for it in geometry.iter() if it.tag in (GML + "pos", GML + "posList")]


def features_of(answer) -> dict:
    """The features of a collection: the values of each by their names, by the identifiers."""
    members = [it[0] for it in tree.fromstring(answer.body) if it.tag == WFS + "member"]
    return {it.get(GML + "id"): {value.tag.split("}")[1]: value_of(value) for value in it} for it in members}


def stored_in(answer) -> dict:
    """The titles of the stored queries of a list, by their identifiers."""
    queries = [it for it in tree.fromstring(answer.body) if it.tag == WFS + "StoredQuery"]
    return {it.get("id"): it.findtext(WFS + "Title") for it in queries}


def line_of(expected: dict, openings: int) -> str:
    return "types %d features %d queries %d openings %d\n" % (expected["types"], len(expected["features"]), len(expected["stored"]), openings)


def finds_what_was_sent(folder, expected: dict) -> None:
    """That features and stored queries are those that are expected, and no other."""
    names = list(expected["next"])
    stored = expected["stored"]
    uses = [asked("GetFeature", "storedQuery_id=%s&%s" % (name, it["given"])) for name, it in stored.items()]
    answers = folder.ask(asked("ListStoredQueries"), *(asked("GetFeature", "typeNames=" + it) for it in names), *uses)
    same(stored_in(answers[0]), {BUILT_IN: None, **{name: it["title"] for name, it in stored.items()}})
    found = {}
    for answer in answers[1 : 1 + len(names)]:
        found.update(features_of(answer))
    same(found, expected["features"])
    same([list(features_of(it)) for it in answers[1 + len(names) :]], [it["finds"] for it in stored.values()])


def next_numbers(folder, expected: dict) -> None:
    """That the next feature of each type gets the number that is expected."""
    schema = folder.read("schema.toml").decode()
    space = re.search(r'namespace = "(.*)"', schema)[1]
    # Each type's texts that are required are empty here.
    required = {"Mark": "label", "Parcel": "number"}
    made = ["<p:%s>%s</p:%s>" % (it, "<p:%s/>" % required[it] if it in required else "", it) for it in expected["next"]]
    body = '<Transaction service="WFS" version="2.0.2" xmlns="http://www.opengis.net/wfs/2.0" xmlns:p="%s"><Insert>%s</Insert></Transaction>' % (space, "".join(made))
    same(folder.ask(post(body))[0].ids, ["%s.%d" % it for it in expected["next"].items()])


@rows(*((it, it) for it in sorted(os.listdir(FOLDERS)) if os.path.isdir(os.path.join(FOLDERS, it))))
def test_opens_and_has_what_was_sent(name):
    with open(os.path.join(FOLDERS, name, "expected.json"), encoding="utf-8") as file:
        expected = json.load(file)
    with Folder() as folder:
        for part in ("schema.toml", "journal.a", "journal.b"):
            shutil.copy(os.path.join(FOLDERS, name, part), folder.path)
        openings = expected["openings"]
        same(folder.check(), line_of(expected, openings))
        finds_what_was_sent(folder, expected)
        same(folder.check(), line_of(expected, openings + 1))
        same(folder.run("compact").status, DONE)
        finds_what_was_sent(folder, expected)
        same(folder.check(), line_of(expected, openings + 3))
        next_numbers(folder, expected)


def test_each_folder_of_the_first_version_is_there():
    same(sorted(it for it in os.listdir(FOLDERS) if it != "README.md"), ["begun", "compacted", "cut-off", "every-kind", "stored-queries", "three-openings", "two-marks"])
