"""Features that come in (OGC 09-025r2, section 15.2.4; OGC 07-036, section 9.3): the first fault that is named, and what is found afterwards."""

import re

from harness import Folder, same
from refusals import OPTION, UNFIT, all_refused
from samples import SCHEMA, features, transaction


def insertion(content: str) -> bytes:
    return transaction("<Insert handle='h' inputFormat='text/xml; subtype=gml/3.2'>%s</Insert>" % content)


REFUSED_FEATURES = [
    ("<m:Nope><m:label>A</m:label></m:Nope>", UNFIT, "Nope"),
    ("<Mark><m:label>A</m:label></Mark>", UNFIT, "Mark"),
    ("<m:Mark fid='1'><m:nope>1</m:nope></m:Mark>", OPTION, "fid"),
    ("<m:Mark><m:nope>1</m:nope><m:label>A</m:label></m:Mark>", UNFIT, "nope"),
    ("<m:Mark><g:label>A</g:label></m:Mark>", UNFIT, "label"),
    ("<m:Mark><g:name>A</g:name><m:label>A</m:label></m:Mark>", UNFIT, "name"),
    ("<m:Mark><m:label>A</m:label><m:label>A</m:label></m:Mark>", UNFIT, "label"),
    ("<m:Mark><m:size i:nil='1'/><m:size>7</m:size><m:label>A</m:label></m:Mark>", UNFIT, "size"),
    ("<m:Mark><m:size>7</m:size></m:Mark>", UNFIT, "label"),
    ("<m:Mark><m:label i:nil='true'/><m:nope>1</m:nope></m:Mark>", UNFIT, "label"),
    ("<m:Mark><m:label b='1' a='1' i:nil='true'>A</m:label></m:Mark>", OPTION, "a"),
    ("<m:Mark><m:label>12345678901234567890123456789012345678901</m:label></m:Mark>", UNFIT, "label"),
    ("<m:Mark><m:label><g:Point><g:pos>1 2</g:pos></g:Point></m:label></m:Mark>", UNFIT, "label"),
    ("<m:Mark><m:size><g:Point><g:pos>1 2</g:pos></g:Point></m:size></m:Mark>", UNFIT, "size"),
    ("<m:Mark><m:size/></m:Mark>", UNFIT, "size"),
    ("<m:Mark><m:size>7.0</m:size></m:Mark>", UNFIT, "size"),
    ("<m:Mark><m:size>9223372036854775808</m:size><m:label>A</m:label></m:Mark>", UNFIT, "size"),
    ("<m:Mark><m:size>x</m:size><m:nope>1</m:nope></m:Mark>", UNFIT, "size"),
    ("<m:Mark><m:place>12 7</m:place></m:Mark>", UNFIT, "place"),
    ("<m:Mark><m:place i:nil='true'> </m:place></m:Mark>", UNFIT, "place"),
    ("<m:Mark><m:label>A</m:label><m:place><g:Point><g:pos>12.5 7</g:pos></g:Point></m:place></m:Mark>", UNFIT, "place"),
    ("<m:Mark><m:label>A</m:label><m:place><g:LineString><g:posList>1 2 3 4</g:posList></g:LineString></m:place></m:Mark>", UNFIT, "place"),
    ("<m:Field><m:area><g:Polygon><g:exterior><g:LinearRing><g:posList>0 0 1 1 0 0</g:posList></g:LinearRing></g:exterior></g:Polygon></m:area></m:Field>", UNFIT, "area"),
    ("<m:Way><m:course><g:Point><g:pos>1 2</g:pos></g:Point></m:course></m:Way>", UNFIT, "course"),
    ("<m:Lamp/>", UNFIT, "lit"),
    ("<m:Lamp><m:kind>x</m:kind></m:Lamp>", UNFIT, "lit"),
    ("<m:Lamp><m:lit>0</m:lit></m:Lamp>", UNFIT, "kind"),
    ("<m:Lamp><m:lit>yes</m:lit><m:kind>x</m:kind></m:Lamp>", UNFIT, "lit"),
    ("<m:Mark><m:label>A</m:label></m:Mark><m:Mark><m:size>x</m:size></m:Mark><m:Nope/>", UNFIT, "size"),
    ("<m:Mark><m:label>A</m:label><m:place><g:Point><g:pos>1 2</g:pos></g:Point><g:Point><g:pos>1 2</g:pos></g:Point></m:place></m:Mark>", UNFIT, "place"),
]


def test_the_first_fault_of_a_feature_is_named():
    with Folder(SCHEMA) as folder:
        all_refused(folder, insertion, REFUSED_FEATURES)
        same(folder.check(), "types 4 features 0 queries 0 openings 1\n")


LABEL_A = "<m:label>A</m:label>"
POINT = '<m:place><gml:Point srsName="urn:ogc:def:crs:EPSG::25832"><gml:pos>%s</gml:pos></gml:Point></m:place>'

# What is inserted, and the properties of the features that are found then, without the identifiers in them.
READ = [
    ("<m:Mark><m:label>A</m:label></m:Mark><m:Mark><m:label>B</m:label></m:Mark>", [LABEL_A, "<m:label>B</m:label>"]),
    ("<m:Mark><m:label>A</m:label><m:place><g:Point><g:pos>12.0 7</g:pos></g:Point></m:place></m:Mark>", [LABEL_A + POINT % "12 7"]),
    ("<m:Mark><m:place><g:Point><g:pos>12 7</g:pos></g:Point></m:place><m:size> +7 </m:size><m:label> A </m:label></m:Mark>", ["<m:label> A </m:label><m:size>7</m:size>" + POINT % "12 7"]),
    ("<m:Mark><m:label>1234567890123456789012345678901234567890</m:label></m:Mark>", ["<m:label>1234567890123456789012345678901234567890</m:label>"]),
    ("<m:Mark><m:label/></m:Mark>", ["<m:label/>"]),
    ("<m:Mark><m:size i:nil='1'/><m:place i:nil='true'/><m:label>A</m:label></m:Mark>", [LABEL_A]),
    ("<m:Mark><m:label i:nil='false'/></m:Mark>", ["<m:label/>"]),
    ("<m:Mark><m:label i:nil='true'>A</m:label></m:Mark>", [LABEL_A]),
    ("<m:Mark><g:boundedBy a='1'>x</g:boundedBy><m:label>A</m:label><g:boundedBy/></m:Mark>", [LABEL_A]),
    ("<m:Mark g:id='a'><m:label f:y='1'>A</m:label></m:Mark>", [LABEL_A]),
    ("<m:Lamp><m:kind>x</m:kind><m:lit>true</m:lit></m:Lamp>", ["<m:lit>true</m:lit><m:kind>x</m:kind>"]),
    ("<m:Lamp><m:kind>x</m:kind><m:lit> 1 </m:lit></m:Lamp>", ["<m:lit>true</m:lit><m:kind>x</m:kind>"]),
    ("<m:Lamp><m:kind>x</m:kind><m:lit>0</m:lit></m:Lamp>", ["<m:lit>false</m:lit><m:kind>x</m:kind>"]),
    ("<m:Field><m:name>x</m:name></m:Field>", ["<m:name>x</m:name>"]),
    # A nil beside a content says nothing.
    ("<m:Mark><m:label>A</m:label><m:place i:nil='true'><g:Point><g:pos>1 2</g:pos></g:Point></m:place></m:Mark>", [LABEL_A + POINT % "1 2"]),
]


def test_what_a_feature_is():
    """Each row is inserted, found, and deleted again."""
    names = ("Mark", "Field", "Way", "Lamp")
    everything = features("".join("<Query typeNames='%s'/>" % name for name in names))
    emptied = transaction("".join("<Delete typeName='%s'><f:Filter><f:Not><f:ResourceId rid=''/></f:Not></f:Filter></Delete>" % name for name in names))
    with Folder(SCHEMA) as folder:
        answers = folder.ask(*[message for content, _ in READ for message in (insertion(content), everything, emptied)])
        for (content, wanted), collection in zip(READ, answers[1::3]):
            members = re.findall(r"<wfs:member><m:\w+ [^>]*>(.*?)</m:\w+></wfs:member>", collection.body)
            same([re.sub(' gml:id="[^"]*"', "", it) for it in members], wanted, content)
