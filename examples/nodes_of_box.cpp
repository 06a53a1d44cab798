// Prints the nodes inside a box: id, latitude and longitude in degrees, and the tag `name` if there is one.
//
//     nodes_of_box FILE LEFT BOTTOM RIGHT TOP        (in degrees)
//     nodes_of_box liechtenstein-raw.osm.pbf 9.520 47.139 9.522 47.140
//
// Compile it with: c++ -std=c++17 -O2 nodes_of_box.cpp $(pkg-config --cflags --libs pbfrow) -o nodes_of_box
#include <pbfrow.hpp>

#include <cmath>
#include <cstdio>
#include <cstdlib>

static std::int64_t nanodegrees(const char *degrees) { return std::llround(std::strtod(degrees, nullptr) * 1e9); }

static void print_node(const pbfrow::Element &node) {
    std::printf("%lld %.7f %.7f", static_cast<long long>(node.id()), pbfrow::degrees(node.lat()), pbfrow::degrees(node.lon()));
    if (const auto name = node.tag("name")) std::printf(" %.*s", static_cast<int>(name->size()), name->data());
    std::putchar('\n');
}

int main(int argc, char **argv) try {
    if (argc != 6) return std::fputs("nodes_of_box FILE LEFT BOTTOM RIGHT TOP\n", stderr), 2;
    const std::int64_t left = nanodegrees(argv[2]), bottom = nanodegrees(argv[3]), right = nanodegrees(argv[4]),
                       top = nanodegrees(argv[5]);
    pbfrow::keep_memory();
    const pbfrow::MappedFile bytes(argv[1]);
    pbfrow::Block block;
    for (const pbfrow::Blob &blob : pbfrow::File(bytes)) {
        block.read(blob);
        // columns are what is fast to look through: all latitudes of a block lie one behind the other
        const auto kinds = block.kinds();
        const auto lats = block.lats(), lons = block.lons();
        for (std::size_t at = 0; at < block.size(); at++)
            if (kinds[at] == pbfrow::Kind::node && bottom <= lats[at] && lats[at] <= top && left <= lons[at] && lons[at] <= right)
                print_node(block[at]);
    }
} catch (const std::exception &error) {
    std::fprintf(stderr, "nodes_of_box: %s\n", error.what());
    return 1;
}
