"""Filters, geometries and queries as documents (OGC 09-026r2, OGC 07-036), for the messages of the tests."""

from xml.sax.saxutils import escape, quoteattr

from harness import request


def ref(name: str) -> str:
    """A reference to a property."""
    return "<fes:ValueReference>%s</fes:ValueReference>" % name


def lit(value) -> str:
    """A literal."""
    return "<fes:Literal>%s</fes:Literal>" % escape(str(value))


def compare(name: str, left: str, right: str, fold: bool = False) -> str:
    """A comparison of two sides, `EqualTo` and so on, by the case of letters or without it."""
    return "<fes:PropertyIs%s%s>%s%s</fes:PropertyIs%s>" % (name, ' matchCase="false"' if fold else "", left, right, name)


def like(name: str, pattern: str) -> str:
    """That a text is like a pattern, where `*` is the wild card, `.` one character and `!` the escape."""
    return '<fes:PropertyIsLike wildCard="*" singleChar="." escapeChar="!">%s%s</fes:PropertyIsLike>' % (ref(name), lit(pattern))


def null(name: str) -> str:
    """That a property has no value."""
    return "<fes:PropertyIsNull>%s</fes:PropertyIsNull>" % ref(name)


def between(name: str, low: str, high: str) -> str:
    """That a property lies between two bounds."""
    parts = ref(name), low, high
    return "<fes:PropertyIsBetween>%s<fes:LowerBoundary>%s</fes:LowerBoundary><fes:UpperBoundary>%s</fes:UpperBoundary></fes:PropertyIsBetween>" % parts


def rid(*ids: str) -> str:
    """That a feature is one of these."""
    return "".join("<fes:ResourceId rid=%s/>" % quoteattr(it) for it in ids)


def bbox(name, low: str, high: str) -> str:
    """That a geometry, or with None any of a feature, has a position in a box."""
    return "<fes:BBOX>%s%s</fes:BBOX>" % (ref(name) if name else "", envelope(low, high))


def spatial(operator: str, name: str, geometry: str) -> str:
    """`Intersects` or `Disjoint`."""
    return "<fes:%s>%s%s</fes:%s>" % (operator, ref(name), geometry, operator)


def both(*parts: str) -> str:
    return "<fes:And>%s</fes:And>" % "".join(parts)


def either(*parts: str) -> str:
    return "<fes:Or>%s</fes:Or>" % "".join(parts)


def negated(part: str) -> str:
    return "<fes:Not>%s</fes:Not>" % part


def sorted_by(*keys: tuple) -> str:
    """The order by some properties, each `ASC` or `DESC`."""
    one = "<fes:SortProperty>%s<fes:SortOrder>%s</fes:SortOrder></fes:SortProperty>"
    return "<fes:SortBy>%s</fes:SortBy>" % "".join(one % (ref(name), way) for name, way in keys)


# ---- geometries


def point(position: str) -> str:
    return "<gml:Point><gml:pos>%s</gml:pos></gml:Point>" % position


def line(positions: str) -> str:
    return "<gml:LineString><gml:posList>%s</gml:posList></gml:LineString>" % positions


def ring(positions: str) -> str:
    return "<gml:LinearRing><gml:posList>%s</gml:posList></gml:LinearRing>" % positions


def polygon(shell: str, *holes: str) -> str:
    interiors = "".join("<gml:interior>%s</gml:interior>" % ring(hole) for hole in holes)
    return "<gml:Polygon><gml:exterior>%s</gml:exterior>%s</gml:Polygon>" % (ring(shell), interiors)


def envelope(low: str, high: str) -> str:
    return "<gml:Envelope><gml:lowerCorner>%s</gml:lowerCorner><gml:upperCorner>%s</gml:upperCorner></gml:Envelope>" % (low, high)


# ---- features and queries


def feature(kind: str, **properties: str) -> str:
    """A feature of the tests' prefix, whose properties hold this content, as it is written in a document."""
    held = "".join("<m:%s>%s</m:%s>" % (name, content, name) for name, content in properties.items())
    return "<m:%s>%s</m:%s>" % (kind, held, kind)


def query(kind: str, filtered: str = "", order: str = "") -> str:
    """A query of a type by a filter's operator."""
    return '<wfs:Query typeNames="%s">%s%s</wfs:Query>' % (kind, filtered and "<fes:Filter>%s</fes:Filter>" % filtered, order)


def find(kind: str, filtered: str = "", order: str = "") -> bytes:
    """A GetFeature of a type by a filter's operator."""
    return request("GetFeature", query(kind, filtered, order))


def count(kind: str, filtered: str = "") -> bytes:
    """A GetFeature that counts what a filter's operator is true of."""
    return request("GetFeature", query(kind, filtered), 'resultType="hits"')
