#!/usr/bin/env python3
"""count_pyosmium.py FILE: counts what a file has, by a handler of pyosmium: nodes, ways, relations, tags, refs and members."""
import sys

import osmium


class Counting(osmium.SimpleHandler):
    def __init__(self):
        super().__init__()
        self.nodes = self.ways = self.relations = self.tags = self.refs = self.members = 0

    def node(self, node):
        self.nodes += 1
        self.tags += len(node.tags)

    def way(self, way):
        self.ways += 1
        self.tags += len(way.tags)
        self.refs += len(way.nodes)

    def relation(self, relation):
        self.relations += 1
        self.tags += len(relation.tags)
        self.members += len(relation.members)


counting = Counting()
counting.apply_file(sys.argv[1])
print(counting.nodes, counting.ways, counting.relations, counting.tags, counting.refs, counting.members)
