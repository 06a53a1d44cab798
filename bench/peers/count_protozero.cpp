// Reads a PBF file of raw blobs, a blob at a time, decodes by protozero every number of every element that pbfrow keeps, adds
// up differences, and counts. It builds no element, and tests neither texts nor ranges: a floor for what decoding costs.
#include <cstdint>
#include <cstdio>
#include <protozero/pbf_reader.hpp>
#include <string>

using protozero::data_view;
using protozero::pbf_reader;

static uint64_t blobs, nodes, ways, relations, tags;
static int64_t total;

// Adds the numbers up, and says how many there are.
template <typename Range> static uint64_t numbers(Range range) {
    uint64_t count = 0;
    for (auto value : range) { total += value; ++count; }
    return count;
}

// The same of the numbers whose differences these are.
template <typename Range> static uint64_t sums(Range range) {
    uint64_t count = 0;
    int64_t sum = 0;
    for (auto difference : range) { sum += difference; total += sum; ++count; }
    return count;
}

static void dense_info(pbf_reader info) {
    while (info.next()) {
        switch (info.tag()) {
            case 1: numbers(info.get_packed_int32()); break;
            case 2: case 3: sums(info.get_packed_sint64()); break;
            case 4: case 5: sums(info.get_packed_sint32()); break;
            default: info.skip();
        }
    }
}

static void dense(pbf_reader message) {
    while (message.next()) {
        switch (message.tag()) {
            case 1: nodes += sums(message.get_packed_sint64()); break;
            case 8: case 9: sums(message.get_packed_sint64()); break;
            case 10: tags += numbers(message.get_packed_int32()); break;
            case 5: dense_info(message.get_message()); break;
            default: message.skip();
        }
    }
}

static void info(pbf_reader message) {
    while (message.next()) {
        if (message.tag() <= 5) total += message.get_int64();
        else message.skip();
    }
}

static void element(pbf_reader message, bool is_way) {
    while (message.next()) {
        switch (message.tag()) {
            case 1: total += message.get_int64(); break;
            case 2: tags += numbers(message.get_packed_uint32()); break;
            case 3: numbers(message.get_packed_uint32()); break;
            case 4: info(message.get_message()); break;
            case 8: if (is_way) sums(message.get_packed_sint64()); else numbers(message.get_packed_int32()); break;
            case 9: if (is_way) message.skip(); else sums(message.get_packed_sint64()); break;
            case 10: if (is_way) message.skip(); else numbers(message.get_packed_enum()); break;
            default: message.skip();
        }
    }
}

static void group(pbf_reader message) {
    while (message.next()) {
        switch (message.tag()) {
            case 2: dense(message.get_message()); break;
            case 3: ++ways; element(message.get_message(), true); break;
            case 4: ++relations; element(message.get_message(), false); break;
            default: message.skip();
        }
    }
}

static void block(pbf_reader message) {
    while (message.next()) {
        if (message.tag() == 1) {
            pbf_reader texts = message.get_message();
            while (texts.next(1)) total += texts.get_view().size();
        } else if (message.tag() == 2) group(message.get_message());
        else message.skip();
    }
}

int main(int argc, char* argv[]) {
    if (argc != 2) return 2;
    std::FILE* file = std::fopen(argv[1], "rb");
    if (!file) return 2;
    unsigned char length[4];
    std::string header, blob;
    while (std::fread(length, 1, 4, file) == 4) {
        header.resize(static_cast<uint32_t>(length[0]) << 24 | length[1] << 16 | length[2] << 8 | length[3]);
        if (std::fread(&header[0], 1, header.size(), file) != header.size()) return 1;
        std::string type;
        size_t size = 0;
        for (pbf_reader fields{header}; fields.next();) {
            if (fields.tag() == 1) type = fields.get_string();
            else if (fields.tag() == 3) size = fields.get_int32();
            else fields.skip();
        }
        blob.resize(size);
        if (std::fread(&blob[0], 1, size, file) != size) return 1;
        ++blobs;
        if (type != "OSMData") continue;
        for (pbf_reader fields{blob}; fields.next();) {
            if (fields.tag() == 1) block(fields.get_message());
            else fields.skip();
        }
    }
    std::printf("blobs %lu nodes %lu ways %lu relations %lu tags %lu (%ld)\n", blobs, nodes, ways, relations, tags, total);
}
