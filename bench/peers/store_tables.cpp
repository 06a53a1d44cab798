// What pbfrow's second layout stores, by stock SQLite: one transaction a blob, elements, tags and links as rows of the same tables.
// Each is on the disk once it is committed, as pbfrow's: a write-ahead log, `synchronous = FULL`, and the log is copied into the
// database at 64 MiB and at the end.
// Words: FILE DATABASE [FROM [TO]]. libosmium reads the file; its buffers stand for the blobs, as far as the tables go. Those from
// FROM up to TO, counted from 0, are stored; where FROM is there and isn't 0, the database has the tables already.
#include <climits>
#include <cstdio>
#include <cstdlib>
#include <cstring>
#include <initializer_list>
#include <osmium/io/pbf_input.hpp>
#include <osmium/io/reader.hpp>
#include <osmium/osm.hpp>
#include <sqlite3.h>

static sqlite3* db = nullptr;
static long rows = 0;

static void run(const char* text) {
    if (sqlite3_exec(db, text, nullptr, nullptr, nullptr) != SQLITE_OK) { std::fprintf(stderr, "%s\n", sqlite3_errmsg(db)); std::exit(1); }
}

static sqlite3_stmt* prepared(const char* text) {
    sqlite3_stmt* statement = nullptr;
    if (sqlite3_prepare_v2(db, text, -1, &statement, nullptr) != SQLITE_OK) { std::fprintf(stderr, "%s\n", sqlite3_errmsg(db)); std::exit(1); }
    return statement;
}

static void step(sqlite3_stmt* statement) {
    if (sqlite3_step(statement) != SQLITE_DONE) { std::fprintf(stderr, "%s\n", sqlite3_errmsg(db)); std::exit(1); }
    sqlite3_reset(statement);
    ++rows;
}

static void text(sqlite3_stmt* statement, int at, const char* it) { sqlite3_bind_text(statement, at, it, static_cast<int>(std::strlen(it)), SQLITE_STATIC); }

static sqlite3_stmt *element, *tag, *link_row, *blob;

static void put_link(long off, long pos, long k, int kind, long ref, const char* role) {
    sqlite3_bind_int64(link_row, 1, off);
    sqlite3_bind_int64(link_row, 2, pos);
    sqlite3_bind_int64(link_row, 3, k);
    sqlite3_bind_int64(link_row, 4, kind);
    sqlite3_bind_int64(link_row, 5, ref);
    text(link_row, 6, role);
    step(link_row);
}

static void put(long off, long pos, const osmium::OSMObject& it) {
    const int kind = it.type() == osmium::item_type::node ? 0 : it.type() == osmium::item_type::way ? 1 : 2;
    sqlite3_clear_bindings(element);
    sqlite3_bind_int64(element, 1, off);
    sqlite3_bind_int64(element, 2, pos);
    sqlite3_bind_int64(element, 3, kind);
    sqlite3_bind_int64(element, 4, it.id());
    if (kind == 0) {
        const auto place = static_cast<const osmium::Node&>(it).location();
        sqlite3_bind_int64(element, 5, 100L * place.y());
        sqlite3_bind_int64(element, 6, 100L * place.x());
    }
    sqlite3_bind_int64(element, 7, it.version());
    sqlite3_bind_int64(element, 8, 1000L * it.timestamp().seconds_since_epoch());
    sqlite3_bind_int64(element, 9, it.changeset());
    sqlite3_bind_int64(element, 10, it.uid());
    text(element, 11, it.user());
    step(element);
    long k = 0;
    for (const auto& pair : it.tags()) {
        sqlite3_bind_int64(tag, 1, off);
        sqlite3_bind_int64(tag, 2, pos);
        sqlite3_bind_int64(tag, 3, k++);
        text(tag, 4, pair.key());
        text(tag, 5, pair.value());
        step(tag);
    }
    k = 0;
    if (kind == 1)
        for (const auto& node : static_cast<const osmium::Way&>(it).nodes()) put_link(off, pos, k++, 0, node.ref(), "");
    if (kind == 2)
        for (const auto& member : static_cast<const osmium::Relation&>(it).members())
            put_link(off, pos, k++, member.type() == osmium::item_type::node ? 0 : member.type() == osmium::item_type::way ? 1 : 2, member.ref(), member.role());
}

int main(int argc, char* argv[]) {
    if (argc < 3 || argc > 5 || sqlite3_open(argv[2], &db) != SQLITE_OK) return 2;
    run("PRAGMA journal_mode = WAL; PRAGMA synchronous = FULL; PRAGMA wal_autocheckpoint = 16384;");
    const long from = argc > 3 ? std::atol(argv[3]) : 0;
    const long to = argc > 4 ? std::atol(argv[4]) : LONG_MAX;
    if (from == 0) run("CREATE TABLE meta (version INTEGER PRIMARY KEY) STRICT;"
        "CREATE TABLE blob (off INTEGER PRIMARY KEY, fin INTEGER NOT NULL, digest BLOB NOT NULL, kind INTEGER NOT NULL, n INTEGER NOT NULL) STRICT;"
        "CREATE TABLE element (off INTEGER NOT NULL, pos INTEGER NOT NULL, kind INTEGER NOT NULL, id INTEGER NOT NULL, lat INTEGER, lon INTEGER, version INTEGER,"
        " time INTEGER, changeset INTEGER, uid INTEGER, user TEXT, visible INTEGER, PRIMARY KEY (off, pos)) STRICT;"
        "CREATE TABLE tag (off INTEGER NOT NULL, pos INTEGER NOT NULL, k INTEGER NOT NULL, key TEXT NOT NULL, val TEXT NOT NULL, PRIMARY KEY (off, pos, k)) STRICT;"
        "CREATE TABLE link (off INTEGER NOT NULL, pos INTEGER NOT NULL, k INTEGER NOT NULL, kind INTEGER NOT NULL, ref INTEGER NOT NULL, role TEXT NOT NULL, PRIMARY KEY (off, pos, k)) STRICT;"
        "CREATE INDEX element_by_id ON element (kind, id);");
    element = prepared("INSERT INTO element VALUES (?1, ?2, ?3, ?4, ?5, ?6, ?7, ?8, ?9, ?10, ?11, ?12)");
    tag = prepared("INSERT INTO tag VALUES (?1, ?2, ?3, ?4, ?5)");
    link_row = prepared("INSERT INTO link VALUES (?1, ?2, ?3, ?4, ?5, ?6)");
    blob = prepared("INSERT INTO blob VALUES (?1, ?2, ?3, ?4, ?5)");
    osmium::io::Reader reader{argv[1]};
    for (long off = 0; off < to; ++off) {
        const osmium::memory::Buffer buffer = reader.read();
        if (!buffer) break;
        if (off < from) continue;
        run("BEGIN");
        long pos = 0;
        for (const auto& it : buffer.select<osmium::OSMObject>()) put(off, pos++, it);
        sqlite3_bind_int64(blob, 1, off);
        sqlite3_bind_int64(blob, 2, off + 1);
        sqlite3_bind_blob(blob, 3, "0123456789abcdef0123456789abcdef", 32, SQLITE_STATIC);
        sqlite3_bind_int64(blob, 4, 1);
        sqlite3_bind_int64(blob, 5, pos);
        step(blob);
        run("COMMIT");
    }
    for (sqlite3_stmt* statement : {element, tag, link_row, blob}) sqlite3_finalize(statement);
    if (sqlite3_close(db) != SQLITE_OK) return 1;
    std::printf("%ld rows\n", rows);
    return 0;
}
