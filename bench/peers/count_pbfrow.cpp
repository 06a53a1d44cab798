// Reads a PBF file of raw blobs, a blob at a time, decodes by the library of this project every element into columns, adds up the
// numbers, and counts. It is compiled with the library in out/library, where make library puts it:
//   g++ -O2 -std=c++17 -Iout/library/include -o count_pbfrow bench/peers/count_pbfrow.cpp out/library/lib/libpbfrow.a
#include <cstdio>
#include <pbfrow.hpp>

static std::uint64_t blobs, nodes, ways, relations, tags, refs, members, texts;
static std::int64_t total;

template <typename Number> static void add(pbfrow::View<Number> numbers) {
    for (const Number number : numbers) total += static_cast<std::int64_t>(number);
}

static void add_block(const pbfrow::Block &block) {
    nodes += block.nodes();
    ways += block.ways();
    relations += block.relations();
    tags += block.counts().tags;
    refs += block.counts().refs;
    members += block.counts().members;
    texts += block.counts().texts;
    add(block.ids());
    add(block.lats());
    add(block.lons());
    add(block.refs());
    add(block.member_ids());
    add(block.tag_keys());
    add(block.tag_values());
}

int main(int argc, char *argv[]) try {
    if (argc != 2 && argc != 3) return 2;
    if (argc == 2) pbfrow::keep_memory(); // a second word leaves malloc as it is
    std::FILE *file = std::fopen(argv[1], "rb");
    if (file == nullptr) return 2;
    pbfrow::Input input([file](std::uint8_t *to, std::size_t room) { return std::fread(to, 1, room, file); });
    pbfrow::Block block;
    for (const pbfrow::Blob &blob : input) {
        ++blobs;
        block.read(blob);
        add_block(block);
    }
    std::printf("blobs %lu nodes %lu ways %lu relations %lu tags %lu refs %lu members %lu texts %lu (%ld)\n", blobs, nodes, ways,
                relations, tags, refs, members, texts, total);
} catch (const pbfrow::Fault &fault) {
    std::puts(fault.what());
    return 1;
}
