"""Books that bring about the deepest stack that there can be."""
from sorgwenad.building.books import circle, fan

DEEP = [("ring of 64", circle(64, 1)), ("ring of 64, 256 strands", circle(64, 4)), ("coinductive ring", circle(64, 1, True)),
        ("coinductive ring, 256 strands", circle(64, 4, True)), ("193 clauses before a chain of 63", fan()),
        ("ring of 64, 256 strands, ranges", circle(64, 4, False, "/0-65535"))]
