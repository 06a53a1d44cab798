-- Names by a word in them, and ways by a box: sqlite3 country.db < search.sql, once all of a file is imported. After a later import
-- run it again, which adds the blobs that came since. DROP TABLE takes both tables away again, at any time. They need what sqlite3
-- mostly has, FTS5 and R*Tree.

-- all names, each with its element
CREATE VIRTUAL TABLE IF NOT EXISTS name_text USING fts5 (name, off UNINDEXED, pos UNINDEXED);
INSERT INTO name_text (name, off, pos)
SELECT val, off, pos FROM tag
WHERE key = 'name' AND off NOT IN (SELECT off FROM name_text);

-- the box of each way that has a node in the database, in degrees, a little wider than exact
CREATE VIRTUAL TABLE IF NOT EXISTS way_box USING rtree (id, west, east, south, north, +off, +pos);
INSERT INTO way_box (west, east, south, north, off, pos)
SELECT min(node.lon) / 1e9, max(node.lon) / 1e9, min(node.lat) / 1e9, max(node.lat) / 1e9, way.off, way.pos
FROM element AS way
JOIN link USING (off, pos)
JOIN element AS node ON node.kind = 0 AND node.id = link.ref
WHERE way.kind = 1 AND way.off NOT IN (SELECT off FROM way_box)
GROUP BY way.off, way.pos;
