// Decodes a PBF file by libosmium and counts what it holds: nodes, ways, relations, tags, refs and members.
#include <cstdio>
#include <osmium/handler.hpp>
#include <osmium/io/pbf_input.hpp>
#include <osmium/visitor.hpp>

struct Counter : osmium::handler::Handler {
    unsigned long nodes = 0, ways = 0, relations = 0, tags = 0, refs = 0, members = 0;
    long sum = 0;
    void node(const osmium::Node& node) { ++nodes; tags += node.tags().size(); sum += node.location().x(); }
    void way(const osmium::Way& way) { ++ways; tags += way.tags().size(); refs += way.nodes().size(); }
    void relation(const osmium::Relation& relation) { ++relations; tags += relation.tags().size(); members += relation.members().size(); }
};

int main(int argc, char* argv[]) {
    if (argc != 2) return 2;
    osmium::io::Reader reader{osmium::io::File{argv[1], "pbf"}};
    Counter counter;
    osmium::apply(reader, counter);
    reader.close();
    std::printf("nodes %lu ways %lu relations %lu tags %lu refs %lu members %lu (%ld)\n", counter.nodes, counter.ways,
                counter.relations, counter.tags, counter.refs, counter.members, counter.sum);
}
