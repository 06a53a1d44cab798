// Prints the ways that have a tag, each with the places of its nodes, as a line of a WKT reader's taste:
//
//     ways_with_places FILE KEY
//     ways_with_places country.osm.pbf highway
//     w 3 residential LINESTRING (9.5200000 47.1400000, 9.5210000 47.1410000)
//
// It reads extracts as they are downloaded, whose blobs are compressed by zlib, and raw ones. The places of all nodes are held in
// memory: some 40 bytes each.
//
// Compile it with: c++ -std=c++17 -O2 ways_with_places.cpp $(pkg-config --cflags --libs pbfrow zlib) -o ways_with_places
#include <pbfrow.hpp>

#include <cstdio>
#include <unordered_map>
#include <zlib.h>

struct Place {
    std::int64_t lat, lon;
};
using Places = std::unordered_map<std::int64_t, Place>;

// An answer of another length than the blob says is a fault of the blob, so no bytes are the answer where zlib fails.
static std::vector<std::uint8_t> inflated(pbfrow::Compression compression, pbfrow::View<std::uint8_t> compressed,
                                          std::uint64_t raw_size) {
    if (compression != pbfrow::Compression::zlib) return {};
    std::vector<std::uint8_t> bytes(raw_size + 1);
    uLongf length = bytes.size();
    if (uncompress(bytes.data(), &length, compressed.data(), compressed.size()) != Z_OK) return {};
    bytes.resize(length);
    return bytes;
}

static void print_way(const pbfrow::Element &way, std::string_view value, const Places &places) {
    std::printf("w %lld %.*s LINESTRING", static_cast<long long>(way.id()), static_cast<int>(value.size()), value.data());
    const char *separator = " (";
    for (const std::int64_t ref : way.refs()) {
        const auto found = places.find(ref);
        if (found == places.end()) continue; // an extract may lack nodes at its edge
        std::printf("%s%.7f %.7f", separator, pbfrow::degrees(found->second.lon), pbfrow::degrees(found->second.lat));
        separator = ", ";
    }
    std::puts(separator[0] == ' ' ? " EMPTY" : ")");
}

int main(int argc, char **argv) try {
    if (argc != 3) return std::fputs("ways_with_places FILE KEY\n", stderr), 2;
    pbfrow::keep_memory();
    const pbfrow::MappedFile bytes(argv[1]);
    Places places;
    pbfrow::Block block;
    for (const pbfrow::Blob &blob : pbfrow::File(bytes, inflated)) {
        block.read(blob);
        for (const pbfrow::Element element : block) { // in an extract all nodes come before the ways
            if (element.kind() == pbfrow::Kind::node) places[element.id()] = {element.lat(), element.lon()};
            if (element.kind() != pbfrow::Kind::way) continue;
            if (const auto value = element.tag(argv[2])) print_way(element, *value, places);
        }
    }
} catch (const std::exception &error) {
    std::fprintf(stderr, "ways_with_places: %s\n", error.what());
    return 1;
}
