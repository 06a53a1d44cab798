# older_two_nodes FILE: a new database with the two-node file, as an earlier pbfrow has made it: each element is a block. It calls
# sqlite3.
older_two_nodes() {
  local header_digest nodes_digest first second
  header_digest=$(head -c 47 "$top/data/two-nodes.osm.pbf" | sha256sum | cut -c 1-64)
  nodes_digest=$(tail -c 37 "$top/data/two-nodes.osm.pbf" | sha256sum | cut -c 1-64)
  # each node in a block of its own, as the format has it: one empty string, and a group with one dense node
  first=0A020A00120B12090A01024201144A0101
  second=0A020A00120B12090A01044201124A0101
  sqlite3 "$1" "
    CREATE TABLE meta (version INTEGER PRIMARY KEY) STRICT;
    CREATE TABLE blob (off INTEGER PRIMARY KEY, fin INTEGER NOT NULL, digest BLOB NOT NULL, kind INTEGER NOT NULL, n INTEGER NOT NULL) STRICT;
    CREATE TABLE body (off INTEGER NOT NULL, pos INTEGER NOT NULL, kind INTEGER NOT NULL, id INTEGER NOT NULL, data BLOB NOT NULL, PRIMARY KEY (off, pos)) STRICT;
    CREATE INDEX body_element ON body (kind, id);
    INSERT INTO meta VALUES (1);
    INSERT INTO blob VALUES (0, 47, x'$header_digest', 0, 0), (47, 84, x'$nodes_digest', 1, 2);
    INSERT INTO body VALUES (47, 0, 0, 1, x'$first'), (47, 1, 0, 2, x'$second')"
}
