-- Two indexes and four views for a database of pbfrow, after its first import: sqlite3 country.db < views.sql
-- From then on each import and merge keeps the indexes complete, and the views show what is there. DROP INDEX and DROP VIEW take
-- them away again, at any time.

-- tags by their key and value
CREATE INDEX IF NOT EXISTS tag_by_key ON tag (key, val);
-- ways and relations by what they refer to; the id first, since most links are to nodes, so that their kinds tell little
CREATE INDEX IF NOT EXISTS link_by_ref ON link (ref, kind);

-- nodes, in degrees; to find those in a box, compare element.lat and element.lon, in nanodegrees: a computed column has no index
CREATE VIEW IF NOT EXISTS node AS
SELECT off, pos, id, lat / 1e9 AS lat, lon / 1e9 AS lon FROM element WHERE kind = 0;

-- the nodes of each way, in its order: k counts them from 0. held is 0 where the database lacks the node, as at the border of an
-- extract: then lat and lon are NULL, and a line through the other nodes wouldn't be the way. In a file with history a node has a
-- row for each of its versions.
CREATE VIEW IF NOT EXISTS way_node AS
SELECT way.off, way.pos, way.id AS way, link.k, link.ref AS node, node.id IS NOT NULL AS held, node.lat / 1e9 AS lat, node.lon / 1e9 AS lon
FROM element AS way
JOIN link USING (off, pos)
LEFT JOIN element AS node ON node.kind = 0 AND node.id = link.ref
WHERE way.kind = 1;

-- each node and way with its name, and where it is, in degrees: a way is at the mean of its nodes, which is near its middle. In a
-- file with history each version of it has a row, and its name.
CREATE VIEW IF NOT EXISTS place AS
SELECT off, pos, kind, id,
  (SELECT val FROM tag WHERE tag.off = element.off AND tag.pos = element.pos AND key = 'name') AS name,
  CASE kind WHEN 0 THEN lat / 1e9 ELSE
    (SELECT avg(node.lat) / 1e9 FROM link JOIN element AS node ON node.kind = 0 AND node.id = link.ref
      WHERE link.off = element.off AND link.pos = element.pos) END AS lat,
  CASE kind WHEN 0 THEN lon / 1e9 ELSE
    (SELECT avg(node.lon) / 1e9 FROM link JOIN element AS node ON node.kind = 0 AND node.id = link.ref
      WHERE link.off = element.off AND link.pos = element.pos) END AS lon
FROM element WHERE kind IN (0, 1);

-- the members of each relation, in its order: their kind is 0 for a node, 1 for a way and 2 for a relation
CREATE VIEW IF NOT EXISTS member AS
SELECT relation.off, relation.pos, relation.id AS relation, link.k, link.kind, link.ref, link.role
FROM element AS relation
JOIN link USING (off, pos)
WHERE relation.kind = 2;

-- what SQLite has to know of the tables to make the best of the indexes
ANALYZE;
