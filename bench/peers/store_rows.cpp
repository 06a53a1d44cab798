// What bench/store measures of pbfrow's stores, by stock SQLite: the same statements, prepared once, on the same tables and
// index, one transaction a blob. Prints a line `NAME SECONDS COUNT` for each thing that it has done COUNT times.
// Words: put, find ELEMENTS, extents BLOBS or touching BLOBS. Databases go into the current folder.
#include <algorithm>
#include <chrono>
#include <cstdint>
#include <cstdio>
#include <cstdlib>
#include <cstring>
#include <initializer_list>
#include <sqlite3.h>
#include <string>
#include <utility>
#include <vector>

using clock_type = std::chrono::steady_clock;

static const int64_t questions = 10000, most_elements = 8000, blob_bytes = 10, put_blobs = 25, small_blob = 2000;

// An element by the rule of bench/store/src/elements.rt.in.
struct Element {
    int64_t id;
    int kind;
    std::vector<std::pair<const char*, const char*>> tags;
    std::vector<int64_t> refs;
    std::string block;
};

static Element made(int64_t id) {
    Element it{id, id % 8 == 7 ? 1 : 0, {}, {}, {}};
    if (id % 8 == 0) it.tags = {{"highway", "crossing"}, {"crossing", "uncontrolled"}};
    if (id % 8 == 7) {
        it.tags = {{"highway", "residential"}, {"surface", "asphalt"}};
        for (int64_t turn = 0; turn < 8; ++turn) it.refs.push_back(id + turn);
    }
    it.block.assign(id % 8 == 0 ? 90 : id % 8 == 7 ? 91 : 50, 'b'); // as long as pbfrow's block of it
    return it;
}

static void fail(sqlite3* db) {
    std::fprintf(stderr, "%s\n", sqlite3_errmsg(db));
    std::exit(1);
}

static void print(const std::string& name, double spent, int64_t count) { std::printf("%s %.6f %lld\n", name.c_str(), spent, static_cast<long long>(count)); }

static double since(clock_type::time_point start) { return std::chrono::duration<double>(clock_type::now() - start).count(); }

static int64_t number(const char* word) { return std::strtoll(word, nullptr, 10); }

// A store in one of the two layouts.
class Store {
    sqlite3* db = nullptr;
    const bool has_tables;
    std::vector<sqlite3_stmt*> statements;
    sqlite3_stmt *begin, *commit, *put_blob, *put_body, *put_element, *put_tag, *put_link, *find_body, *find_element, *its_tags, *its_links, *all_extents, *last_start, *touching;

    void run(const char* text) {
        if (sqlite3_exec(db, text, nullptr, nullptr, nullptr) != SQLITE_OK) fail(db);
    }

    sqlite3_stmt* prepared(const char* text) {
        sqlite3_stmt* statement = nullptr;
        if (sqlite3_prepare_v2(db, text, -1, &statement, nullptr) != SQLITE_OK) fail(db);
        statements.push_back(statement);
        return statement;
    }

    void bind(sqlite3_stmt* statement, std::initializer_list<int64_t> numbers) {
        int at = 0;
        for (const int64_t it : numbers) sqlite3_bind_int64(statement, ++at, it);
    }

    void text(sqlite3_stmt* statement, int at, const char* it) { sqlite3_bind_text(statement, at, it, static_cast<int>(std::strlen(it)), SQLITE_STATIC); }

    void step(sqlite3_stmt* statement) {
        if (sqlite3_step(statement) != SQLITE_DONE) fail(db);
        sqlite3_reset(statement);
    }

    // Adds a row: these numbers, and behind them these texts.
    void insert(sqlite3_stmt* statement, std::initializer_list<int64_t> numbers, std::initializer_list<const char*> texts) {
        bind(statement, numbers);
        int at = static_cast<int>(numbers.size());
        for (const char* it : texts) text(statement, ++at, it);
        step(statement);
    }

    // Reads all rows that a statement gives for these numbers, each column as a value of its own.
    int64_t read(sqlite3_stmt* statement, std::initializer_list<int64_t> numbers, int64_t* off = nullptr, int64_t* pos = nullptr) {
        bind(statement, numbers);
        int64_t rows = 0, status;
        std::vector<sqlite3_value*> row;
        while ((status = sqlite3_step(statement)) == SQLITE_ROW) {
            for (int at = 0; at < sqlite3_column_count(statement); ++at) row.push_back(sqlite3_value_dup(sqlite3_column_value(statement, at)));
            if (off) *off = sqlite3_column_int64(statement, 0);
            if (pos) *pos = sqlite3_column_int64(statement, 1);
            ++rows;
        }
        if (status != SQLITE_DONE) fail(db);
        sqlite3_reset(statement);
        for (sqlite3_value* it : row) sqlite3_value_free(it);
        return rows;
    }

    void make_tables() {
        run("CREATE TABLE element (off INTEGER NOT NULL, pos INTEGER NOT NULL, kind INTEGER NOT NULL, id INTEGER NOT NULL, lat INTEGER, lon INTEGER, version INTEGER,"
            " time INTEGER, changeset INTEGER, uid INTEGER, user TEXT, visible INTEGER, PRIMARY KEY (off, pos)) STRICT;"
            "CREATE TABLE tag (off INTEGER NOT NULL, pos INTEGER NOT NULL, k INTEGER NOT NULL, key TEXT NOT NULL, val TEXT NOT NULL, PRIMARY KEY (off, pos, k)) STRICT;"
            "CREATE TABLE link (off INTEGER NOT NULL, pos INTEGER NOT NULL, k INTEGER NOT NULL, kind INTEGER NOT NULL, ref INTEGER NOT NULL, role TEXT NOT NULL, PRIMARY KEY (off, pos, k)) STRICT;"
            "CREATE INDEX element_by_id ON element (kind, id);");
        put_element = prepared("INSERT INTO element (off, pos, kind, id, lat, lon, version, time, changeset, uid, user, visible) VALUES (?1, ?2, ?3, ?4, ?5, ?6, ?7, ?8, ?9, ?10, ?11, ?12)");
        put_tag = prepared("INSERT INTO tag (off, pos, k, key, val) VALUES (?1, ?2, ?3, ?4, ?5)");
        put_link = prepared("INSERT INTO link (off, pos, k, kind, ref, role) VALUES (?1, ?2, ?3, ?4, ?5, ?6)");
        find_element = prepared("SELECT off, pos, kind, id, lat, lon, version, time, changeset, uid, user, visible FROM element WHERE kind = ?1 AND id = ?2 ORDER BY off, pos");
        its_tags = prepared("SELECT off, pos, k, key, val FROM tag WHERE off = ?1 AND pos = ?2 ORDER BY off, pos, k");
        its_links = prepared("SELECT off, pos, k, kind, ref, role FROM link WHERE off = ?1 AND pos = ?2 ORDER BY off, pos, k");
    }

    void make_blocks() {
        run("CREATE TABLE body (off INTEGER NOT NULL, pos INTEGER NOT NULL, kind INTEGER NOT NULL, id INTEGER NOT NULL, data BLOB NOT NULL, PRIMARY KEY (off, pos)) STRICT;"
            "CREATE INDEX body_element ON body (kind, id);");
        put_body = prepared("INSERT INTO body (off, pos, kind, id, data) VALUES (?1, ?2, ?3, ?4, ?5)");
        find_body = prepared("SELECT off, pos, data FROM body WHERE kind = ?1 AND id = ?2 ORDER BY off, pos");
    }

    void put_rows(int64_t off, int64_t pos, const Element& it) {
        bind(put_element, {off, pos, it.kind, it.id});
        if (it.kind == 0) {
            sqlite3_bind_int64(put_element, 5, 45000000000 + 100 * it.id);
            sqlite3_bind_int64(put_element, 6, 45000000000 + 100 * it.id);
        } else {
            sqlite3_bind_null(put_element, 5);
            sqlite3_bind_null(put_element, 6);
        }
        sqlite3_bind_int64(put_element, 7, 2);
        sqlite3_bind_int64(put_element, 8, 1700000000000);
        sqlite3_bind_int64(put_element, 9, 123456789);
        sqlite3_bind_int64(put_element, 10, 98765);
        step(put_element);
        int64_t k = 0;
        for (const auto& pair : it.tags) insert(put_tag, {off, pos, k++}, {pair.first, pair.second});
        k = 0;
        for (const int64_t ref : it.refs) insert(put_link, {off, pos, k++, 0, ref}, {""});
    }

    void put_block(int64_t off, int64_t pos, const Element& it) {
        bind(put_body, {off, pos, it.kind, it.id});
        sqlite3_bind_blob(put_body, 5, it.block.data(), static_cast<int>(it.block.size()), SQLITE_STATIC);
        step(put_body);
    }

public:
    Store(const char* file, bool tables) : has_tables(tables) {
        if (sqlite3_open(file, &db) != SQLITE_OK) fail(db);
        // what pbfrow's library does to a file: a log beside it, and a sync of each commit
        run("PRAGMA journal_mode = WAL; PRAGMA synchronous = FULL;");
        run("BEGIN;"
            "CREATE TABLE meta (version INTEGER PRIMARY KEY) STRICT;"
            "CREATE TABLE blob (off INTEGER PRIMARY KEY, fin INTEGER NOT NULL, digest BLOB NOT NULL, kind INTEGER NOT NULL, n INTEGER NOT NULL) STRICT;");
        if (has_tables) make_tables(); else make_blocks();
        run("COMMIT");
        begin = prepared("BEGIN");
        commit = prepared("COMMIT");
        put_blob = prepared("INSERT INTO blob (off, fin, digest, kind, n) VALUES (?1, ?2, ?3, ?4, ?5)");
        all_extents = prepared("SELECT off, fin, digest, kind, n FROM blob ORDER BY off");
        last_start = prepared("SELECT off FROM blob WHERE off <= ?1 ORDER BY off DESC LIMIT 1");
        touching = prepared("SELECT off, fin, digest, kind, n FROM blob WHERE off >= ?1 AND off < ?2 AND fin > ?3 ORDER BY off");
    }

    ~Store() {
        for (sqlite3_stmt* it : statements) sqlite3_finalize(it);
        sqlite3_close(db);
    }

    void put(int64_t number, int kind, const std::vector<Element>& elements) {
        static const std::string digest(32, '\7');
        const int64_t off = number * blob_bytes;
        step(begin);
        bind(put_blob, {off, off + blob_bytes});
        sqlite3_bind_blob(put_blob, 3, digest.data(), 32, SQLITE_STATIC);
        sqlite3_bind_int64(put_blob, 4, kind);
        sqlite3_bind_int64(put_blob, 5, static_cast<int64_t>(elements.size()));
        step(put_blob);
        int64_t pos = 0;
        for (const Element& it : elements) has_tables ? put_rows(off, pos++, it) : put_block(off, pos++, it);
        step(commit);
    }

    int64_t find(int kind, int64_t id) {
        sqlite3_stmt* const query = has_tables ? find_element : find_body;
        int64_t off = 0, pos = 0;
        const int64_t found = read(query, {kind, id}, &off, &pos);
        if (has_tables) {
            read(its_tags, {off, pos});
            read(its_links, {off, pos});
        }
        return found;
    }

    int64_t extents() { return read(all_extents, {}); }

    int64_t extents_touching(int64_t from, int64_t to) {
        int64_t start = 0;
        read(last_start, {from}, &start);
        return read(touching, {start, to, from});
    }
};

static double fill(Store& store, int64_t blobs, int64_t count) {
    double spent = 0;
    for (int64_t it = 0; it < blobs; ++it) {
        std::vector<Element> elements;
        for (int64_t place = 0; place < count; ++place) elements.push_back(made(it * most_elements + place));
        const auto start = clock_type::now();
        store.put(it, 1, elements);
        spent += since(start);
    }
    return spent;
}

static double fill_empty(Store& store, int64_t blobs) {
    const auto start = clock_type::now();
    for (int64_t it = 0; it < blobs; ++it) store.put(it, 2, {});
    return since(start);
}

static void measure_put(const std::string& name, const char* file, bool tables) {
    Store store(file, tables);
    const double spent = fill(store, put_blobs, most_elements);
    print(name, spent, put_blobs * most_elements);
    print(name + "-rows", spent, put_blobs * (tables ? 20001 : 8001));
}

static void measure_find(const char* name, bool tables, int64_t blobs) {
    Store store(":memory:", tables);
    fill(store, blobs, small_blob);
    const auto start = clock_type::now();
    for (int64_t turn = 0; turn < questions; ++turn) {
        const int64_t id = turn * 7919 % blobs * most_elements + turn * 31 % small_blob;
        if (store.find(id % 8 == 7 ? 1 : 0, id) != 1) std::exit(1);
    }
    print(name, since(start), questions);
}

static void measure_extents(int64_t blobs) {
    Store store(":memory:", true);
    print("put-empty", fill_empty(store, blobs), blobs);
    const auto start = clock_type::now();
    const int64_t count = store.extents();
    print("extents", since(start), count);
}

static void measure_touching(int64_t blobs) {
    Store store(":memory:", true);
    print("put-empty", fill_empty(store, blobs), blobs);
    const auto start = clock_type::now();
    for (int64_t turn = 0; turn < questions; ++turn) {
        const int64_t from = turn * 7919 % blobs * blob_bytes + 3;
        if (store.extents_touching(from, from + 4) != 1) std::exit(1);
    }
    print("touching", since(start), questions);
}

int main(int argc, char* argv[]) {
    const std::string command = argc > 1 ? argv[1] : "";
    if (command == "put" && argc == 2) {
        measure_put("put-tables-memory", ":memory:", true);
        measure_put("put-blocks-memory", ":memory:", false);
        measure_put("put-tables-file", "peer-tables.db", true);
        measure_put("put-blocks-file", "peer-blocks.db", false);
        return 0;
    }
    if (argc != 3 || number(argv[2]) < 1) return 2;
    if (command == "find") {
        const int64_t blobs = std::max<int64_t>(1, number(argv[2]) / small_blob);
        measure_find("find-tables", true, blobs);
        measure_find("find-blocks", false, blobs);
    } else if (command == "extents") {
        measure_extents(number(argv[2]));
    } else if (command == "touching") {
        measure_touching(number(argv[2]));
    } else {
        return 2;
    }
    return 0;
}
