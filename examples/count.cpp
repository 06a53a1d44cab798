// Counts what a PBF file holds, as `pbfrow check` does, or prints its blobs and elements, as `pbfrow show` does.
//
//     count FILE
//     count FILE lines
//
// Compile it with: c++ -std=c++17 -O2 count.cpp $(pkg-config --cflags --libs pbfrow) -o count
#include <pbfrow.hpp>

#include <cstdio>
#include <cstring>

// A text, in which each byte that separates or isn't printed is % and two hexadecimal digits.
static void put_text(std::string &out, std::string_view text) {
    for (const char letter : text) {
        const auto byte = static_cast<unsigned char>(letter);
        char code[4];
        std::snprintf(code, sizeof code, "%%%02X", byte);
        if (byte < 33 || byte == 127 || std::strchr("%=,@[]{}()", letter) != nullptr) out += code;
        else out += letter;
    }
}

static void put_line(std::string &out, const char *label, std::string_view text) {
    out += label;
    put_text(out, text);
    out += '\n';
}

static void put_header(std::string &out, const pbfrow::Header &header) {
    using std::to_string;
    if (header.box)
        out += "bbox " + to_string(header.box->left) + ' ' + to_string(header.box->right) + ' ' + to_string(header.box->top) + ' '
               + to_string(header.box->bottom) + '\n';
    for (const std::string &feature : header.required) put_line(out, "required ", feature);
    for (const std::string &feature : header.optional) put_line(out, "optional ", feature);
    if (header.program) put_line(out, "program ", *header.program);
    if (header.source) put_line(out, "source ", *header.source);
    if (header.replication_timestamp) put_line(out, "replication-timestamp ", to_string(*header.replication_timestamp));
    if (header.replication_sequence) put_line(out, "replication-sequence ", to_string(*header.replication_sequence));
    if (header.replication_url) put_line(out, "replication-url ", *header.replication_url);
}

// What is there of the last change: [v=3,t=3000,c=4,i=5,u=ann,x=1]
static void put_info(std::string &out, const pbfrow::Element &element) {
    const char *separator = "";
    const auto put = [&](const char *label, const std::string &text) {
        out += separator;
        out += label;
        out += text;
        separator = ",";
    };
    out += " [";
    if (element.version()) put("v=", std::to_string(*element.version()));
    if (element.time()) put("t=", std::to_string(*element.time()));
    if (element.changeset()) put("c=", std::to_string(*element.changeset()));
    if (element.uid()) put("i=", std::to_string(*element.uid()));
    if (element.user()) put("u=", "");
    if (element.user()) put_text(out, *element.user());
    if (element.visible()) put("x=", *element.visible() ? "1" : "0");
    out += ']';
}

static void put_tags(std::string &out, const pbfrow::Element &element) {
    const char *separator = " {";
    for (const pbfrow::Tag tag : element.tags()) {
        out += separator;
        put_text(out, tag.key());
        out += '=';
        put_text(out, tag.value());
        separator = ",";
    }
    out += element.tags().empty() ? " {}" : "}";
}

// The nodes of a way, or the members of a relation: (1,2,3) or (n1@role,w2@)
static void put_links(std::string &out, const pbfrow::Element &element) {
    const char *separator = " (";
    for (const std::int64_t ref : element.refs()) {
        out += separator + std::to_string(ref);
        separator = ",";
    }
    for (const pbfrow::Member member : element.members()) {
        out += separator;
        out += "nwr"[static_cast<int>(member.kind())] + std::to_string(member.id()) + '@';
        put_text(out, member.role());
        separator = ",";
    }
    out += element.refs().empty() && element.members().empty() ? " ()" : ")";
}

static void put_element(std::string &out, const pbfrow::Element &element) {
    out += "nwr"[static_cast<int>(element.kind())];
    out += ' ' + std::to_string(element.id());
    if (element.kind() == pbfrow::Kind::node) out += ' ' + std::to_string(element.lat()) + ' ' + std::to_string(element.lon());
    else put_links(out, element);
    put_info(out, element);
    put_tags(out, element);
    out += '\n';
}

// The lines of one blob. If it has a fault, reading it throws once its own line stands in `out`.
static void put_blob(std::string &out, const pbfrow::Blob &blob, pbfrow::Block &block) {
    static const char *const types[] = {"OSMHeader", "OSMData", "other"};
    out += "blob " + std::to_string(blob.offset()) + ' ' + types[static_cast<int>(blob.kind())] + ' '
           + std::to_string(blob.length()) + '\n';
    block.read(blob);
    if (blob.kind() == pbfrow::BlobKind::header) put_header(out, pbfrow::Header(blob));
    for (const pbfrow::Element element : block) put_element(out, element);
}

struct Totals {
    std::uint64_t blobs = 0, nodes = 0, ways = 0, relations = 0, faults = 0;
};

// Goes over the blobs. The faults of a blob are printed, and those behind it read; a fault of a frame ends it.
static void read_all(const pbfrow::File &file, bool as_lines, Totals &totals) {
    pbfrow::Block block;
    std::string out;
    for (const pbfrow::Blob &blob : file) {
        out.clear();
        totals.blobs++;
        try {
            if (as_lines) put_blob(out, blob, block);
            else block.read(blob);
        } catch (const pbfrow::Fault &fault) {
            out += fault.what() + std::string("\n");
            totals.faults++;
        }
        std::fwrite(out.data(), 1, out.size(), stdout);
        totals.nodes += block.nodes(), totals.ways += block.ways(), totals.relations += block.relations();
    }
}

int main(int argc, char **argv) try {
    const bool as_lines = argc == 3 && std::strcmp(argv[2], "lines") == 0;
    if (argc != 2 && !as_lines) return std::fputs("count FILE [lines]\n", stderr), 2;
    pbfrow::keep_memory();
    const pbfrow::MappedFile bytes(argv[1]);
    if (as_lines && bytes.size() == 0) return 0;
    Totals totals;
    try {
        read_all(pbfrow::File(bytes), as_lines, totals);
    } catch (const pbfrow::Fault &fault) {
        std::puts(fault.what());
        totals.faults++;
    }
    if (!as_lines)
        std::printf("blobs %llu nodes %llu ways %llu relations %llu faults %llu\n", static_cast<unsigned long long>(totals.blobs),
                    static_cast<unsigned long long>(totals.nodes), static_cast<unsigned long long>(totals.ways),
                    static_cast<unsigned long long>(totals.relations), static_cast<unsigned long long>(totals.faults));
    return totals.faults == 0 ? 0 : 1;
} catch (const std::exception &error) {
    std::fprintf(stderr, "count: %s\n", error.what());
    return 2;
}
