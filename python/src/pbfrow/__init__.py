"""OpenStreetMap PBF files as arrays of numpy and as tables of pandas or Arrow, by the proved decoder of pbfrow.

    import pbfrow

    with pbfrow.open("country.osm.pbf") as file:      # a block of about 8,000 elements at a time
        for block in file:
            print(len(block.nodes), block.nodes.lats.max() / 1e9)

    country = pbfrow.read("country.osm.pbf")          # or all of it
    country.tags.to_pandas()
"""

from ._block import (
    MISSING,
    MISSING_INT,
    Block,
    Elements,
    Members,
    Nodes,
    Numbers,
    Refs,
    Relations,
    Tags,
    Texts,
    Ways,
)
from ._fault import Fault
from ._file import Blob, File, Tables, open
from ._header import Box, Header
from ._read import read

__version__ = "0.1.0"

__all__ = [
    "MISSING",
    "MISSING_INT",
    "Blob",
    "Block",
    "Box",
    "Elements",
    "Fault",
    "File",
    "Header",
    "Members",
    "Nodes",
    "Numbers",
    "Refs",
    "Relations",
    "Tables",
    "Tags",
    "Texts",
    "Ways",
    "open",
    "read",
]

# what messages and help() say of where these are from
for _name in __all__:
    if hasattr(globals()[_name], "__module__"):
        globals()[_name].__module__ = __name__
