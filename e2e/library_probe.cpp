// Calls the library as a careful enemy would. Each way goes over files, and prints what it found in the lines of `pbfrow check`.
//
//   probe exact FILE..          each call has buffers of exactly the size that it may touch, in front of a page that can't be
//                               touched (or from malloc, for AddressSanitizer and valgrind: -DFROM_MALLOC); a call that fails
//                               may have changed nothing; each array in turn is too short by one; what is behind a column stays
//   probe refused FILE..        each growth of memory in turn, and all behind it, are refused: 65 and nothing changed; and each
//                               call gives all memory back (linked statically, with -DWRAPPED and
//                               -Wl,--wrap=malloc,--wrap=realloc,--wrap=free)
//   probe pieces N FILE..       by pbfrow::Input, in pieces of N bytes
//   probe packed WAY FILE..     by pbfrow::File with a decompressor that turns the bytes round: right, short, long, empty, none
//   probe threads N FILE..      the blobs of a file in N threads at once
//   probe small                 what needs no file
//
// It ends with 1 and a line on standard error where something is wrong.
#include <pbfrow.hpp>

#include <cstdio>
#include <cstdlib>
#include <cstring>
#include <mutex>
#include <thread>

static void expect(bool holds, const char *what, std::uint64_t offset) {
    if (holds) return;
    std::fflush(stdout);
    std::fprintf(stderr, "probe: %s, at %llu\n", what, static_cast<unsigned long long>(offset));
    std::_Exit(1);
}

// ---- memory of an exact size

static constexpr std::uint8_t untouched = 0xA5;

class Exact {
  public:
    // So many items of that size, each byte of which is `untouched`. They last until the next call.
    std::uint8_t *take(std::size_t count, std::size_t item) {
        size_ = count * item;
#ifdef FROM_MALLOC
        std::free(at_);
        at_ = static_cast<std::uint8_t *>(std::malloc(size_));
#else
        at_ = end() - size_;
#endif
        if (size_ != 0) std::memset(at_, untouched, size_);
        return at_;
    }
    bool is_untouched() const { return is_untouched_behind(0); }
    bool is_untouched_behind(std::size_t front) const {
        return std::all_of(at_ + front, at_ + size_, [](std::uint8_t byte) { return byte == untouched; });
    }
    std::uint8_t *at() const { return at_; }

  private:
    // The end of a large place in memory that the system fills as it is used. The page behind it can't be touched.
    std::uint8_t *end() {
        constexpr std::size_t room = 512u << 20, page = 4096;
        if (end_ != nullptr) return end_;
        void *place = ::mmap(nullptr, room + page, PROT_READ | PROT_WRITE, MAP_PRIVATE | MAP_ANONYMOUS | MAP_NORESERVE, -1, 0);
        if (place == MAP_FAILED) std::abort();
        end_ = static_cast<std::uint8_t *>(place) + room;
        ::mprotect(end_, page, PROT_NONE);
        return end_;
    }

    std::uint8_t *at_ = nullptr, *end_ = nullptr;
    std::size_t size_ = 0;
};

static const std::uint8_t *copied(Exact &into, const std::uint8_t *bytes, std::size_t length) {
    std::uint8_t *copy = into.take(length, 1);
    if (length != 0) std::memcpy(copy, bytes, length);
    return copy;
}

// ---- the columns of a block, in the order of pbfrow_columns

struct Shape {
    std::size_t item;
    std::uint64_t pbfrow_counts::*count;
};
static const Shape shapes[] = {{1, &pbfrow_counts::elements}, {8, &pbfrow_counts::elements}, {8, &pbfrow_counts::elements},
                               {8, &pbfrow_counts::elements}, {4, &pbfrow_counts::elements}, {8, &pbfrow_counts::elements},
                               {8, &pbfrow_counts::elements}, {4, &pbfrow_counts::elements}, {4, &pbfrow_counts::elements},
                               {1, &pbfrow_counts::elements}, {8, &pbfrow_counts::elements}, {4, &pbfrow_counts::tags},
                               {4, &pbfrow_counts::tags},     {8, &pbfrow_counts::elements}, {8, &pbfrow_counts::refs},
                               {8, &pbfrow_counts::elements}, {1, &pbfrow_counts::members},  {8, &pbfrow_counts::members},
                               {4, &pbfrow_counts::members},  {8, &pbfrow_counts::texts},    {1, &pbfrow_counts::text_bytes}};
static constexpr std::size_t column_count = sizeof shapes / sizeof *shapes;
static_assert(sizeof(pbfrow_columns) == column_count * sizeof(pbfrow_bytes), "a column is missing here");

struct Columns {
    Exact arrays[column_count];
    pbfrow_columns columns, given;

    // Arrays as long as the counts say; `more` items are added to each, and one is left out of the array at `short_one`.
    pbfrow_columns *take(const pbfrow_counts &counts, std::size_t more, std::size_t short_one = column_count) {
        pbfrow_bytes all[column_count];
        for (std::size_t at = 0; at < column_count; at++) {
            const std::size_t length = static_cast<std::size_t>(counts.*shapes[at].count) + more - (at == short_one);
            all[at] = {arrays[at].take(length, shapes[at].item), length};
        }
        std::memcpy(&columns, all, sizeof columns);
        given = columns;
        return &columns;
    }
    // Whether the arrays are as they were given. The struct that names them never changes.
    bool are_given() const { return std::memcmp(&columns, &given, sizeof columns) == 0; }
    bool are_untouched() const {
        return are_given() && std::all_of(arrays, arrays + column_count, [](const Exact &array) { return array.is_untouched(); });
    }
};

static bool are_same(const pbfrow_counts &one, const pbfrow_counts &other) { return std::memcmp(&one, &other, sizeof one) == 0; }

static pbfrow_counts untouched_counts() {
    pbfrow_counts counts;
    std::memset(&counts, untouched, sizeof counts);
    return counts;
}

static bool are_ends(const pbfrow_ends &ends, std::uint64_t count) {
    for (std::size_t at = 1; at < ends.length; at++)
        if (ends.items[at] < ends.items[at - 1]) return false;
    return ends.length == 0 ? count == 0 : ends.items[ends.length - 1] == count;
}

static bool are_indexes(const pbfrow_ints &indexes, std::int32_t least, std::uint64_t texts) {
    return std::all_of(indexes.items, indexes.items + indexes.length, [=](std::int32_t index) {
        return index >= least && (index < 0 || static_cast<std::uint64_t>(index) < texts);
    });
}

// Whether the columns, which have no room to spare, agree with each other and with the counts.
static bool are_whole(const pbfrow_columns &columns, const pbfrow_counts &counts) {
    std::uint64_t kinds[3] = {0, 0, 0};
    for (std::size_t at = 0; at < columns.elements.kinds.length; at++) {
        if (columns.elements.kinds.items[at] > 2 || columns.elements.visible.items[at] > 2) return false;
        kinds[columns.elements.kinds.items[at]]++;
    }
    const bool are_kinds = std::all_of(columns.members.kinds.items, columns.members.kinds.items + columns.members.kinds.length,
                                       [](std::uint8_t kind) { return kind <= 2; });
    return are_kinds && kinds[0] == counts.nodes && kinds[1] == counts.ways && kinds[2] == counts.relations
           && are_ends(columns.tags.ends, counts.tags) && are_ends(columns.refs.ends, counts.refs)
           && are_ends(columns.members.ends, counts.members) && are_ends(columns.texts.ends, counts.text_bytes)
           && are_indexes(columns.elements.users, -1, counts.texts) && are_indexes(columns.tags.keys, 0, counts.texts)
           && are_indexes(columns.tags.values, 0, counts.texts) && are_indexes(columns.members.roles, 0, counts.texts);
}

// ---- exact

static std::uint8_t exact_block(const std::uint8_t *block, std::size_t length, std::uint64_t offset, pbfrow_counts &counts) {
    static Columns exact, other;
    counts = untouched_counts();
    const std::uint8_t status = pbfrow_block_counts(block, length, &counts);
    if (status != 0) {
        expect(are_same(counts, untouched_counts()), "a block's fault has changed the counts", offset);
        const pbfrow_counts few = {4, 4, 4, 4, 4, 4, 4, 4, 4};
        expect(pbfrow_block_columns(block, length, &counts, exact.take(few, 0)) == status,
               "counts and columns answer different faults", offset);
        expect(exact.are_untouched() && are_same(counts, untouched_counts()), "a block's fault has changed something", offset);
        counts = {};
        return status;
    }
    pbfrow_counts again = untouched_counts();
    expect(pbfrow_block_columns(block, length, &again, exact.take(counts, 0)) == 0, "columns of the right length are refused",
           offset);
    expect(are_same(counts, again) && exact.are_given() && are_whole(exact.columns, counts), "counts and columns don't agree",
           offset);
    expect(pbfrow_block_columns(block, length, &again, other.take(counts, 1)) == 0, "longer columns are refused", offset);
    for (std::size_t at = 0; at < column_count; at++) {
        const std::size_t size = static_cast<std::size_t>(counts.*shapes[at].count) * shapes[at].item;
        expect(size == 0 || std::memcmp(exact.arrays[at].at(), other.arrays[at].at(), size) == 0,
               "the same block gives other columns", offset);
        expect(other.arrays[at].is_untouched_behind(size), "something behind a column has changed", offset);
    }
    return 0;
}

// Each array in turn is too short by one.
static void short_columns(const std::uint8_t *block, std::size_t length, std::uint64_t offset, const pbfrow_counts &counts) {
    static Columns columns;
    for (std::size_t at = 0; at < column_count; at++) {
        if (counts.*shapes[at].count == 0) continue;
        pbfrow_counts again = untouched_counts();
        expect(pbfrow_block_columns(block, length, &again, columns.take(counts, 0, at)) == 72,
               "an array that is too short isn't noticed", offset);
        expect(are_same(counts, again), "the counts are wrong where an array is too short", offset);
        expect(columns.are_untouched(), "an array has changed where one is too short", offset);
    }
}

static std::uint8_t exact_header(const std::uint8_t *block, std::size_t length, std::uint64_t offset) {
    static Exact ends, bytes;
    pbfrow_header header, before;
    std::memset(&before, untouched, sizeof before);
    header = before;
    pbfrow_texts texts = {{reinterpret_cast<std::uint64_t *>(ends.take(0, 8)), 0}, {bytes.take(0, 1), 0}};
    const std::uint8_t status = pbfrow_header_block(block, length, &header, &texts);
    if (status != 0 && status != 72) {
        expect(std::memcmp(&header, &before, sizeof header) == 0, "a header's fault has changed it", offset);
        return status;
    }
    expect((status == 72) == (header.texts != 0), "72 without need, or no 72", offset);
    for (int way = 0; way < 3; way++) { // the ends too short by one, the bytes too short by one, neither
        const std::size_t room = static_cast<std::size_t>(header.texts) - (way == 0),
                          byte_room = static_cast<std::size_t>(header.text_bytes) - (way == 1);
        if ((way == 0 && header.texts == 0) || (way == 1 && header.text_bytes == 0)) continue;
        texts = {{reinterpret_cast<std::uint64_t *>(ends.take(room, 8)), room}, {bytes.take(byte_room, 1), byte_room}};
        pbfrow_header again = before;
        expect(pbfrow_header_block(block, length, &again, &texts) == (way == 2 ? 0 : 72), "texts of a header fit or don't",
               offset);
        expect(again.texts == header.texts && again.text_bytes == header.text_bytes, "a header changes", offset);
        expect(way == 2 || (ends.is_untouched() && bytes.is_untouched()), "texts have changed where an array is too short",
               offset);
        expect(way != 2 || are_ends(texts.ends, header.text_bytes), "the ends of a header's texts", offset);
    }
    const std::uint64_t said = header.required + header.optional + header.has_program + header.has_source + header.has_url;
    expect(said == header.texts, "a header has another number of texts", offset);
    return 0;
}

// Every front of a frame lacks bytes.
static void short_frames(const std::uint8_t *frame, std::size_t length, std::uint64_t offset) {
    static Exact front;
    for (std::size_t size = 0; size < length; size++) {
        pbfrow_blob blob;
        const std::uint8_t status = pbfrow_blob_at(copied(front, frame, size), size, offset, &blob);
        expect(status == 10 || status == 12 || status == 18, "a front of a frame is taken for something else", offset);
    }
}

struct Totals {
    std::uint64_t blobs, nodes, ways, relations, faults;
};

static void print_fault(Totals &totals, std::uint8_t number, std::uint64_t offset, std::uint8_t compression) {
    std::puts(pbfrow::Fault(number, offset, static_cast<pbfrow::Compression>(compression)).what());
    totals.faults++;
}

static void print_totals(const Totals &totals) {
    std::printf("blobs %llu nodes %llu ways %llu relations %llu faults %llu\n", static_cast<unsigned long long>(totals.blobs),
                static_cast<unsigned long long>(totals.nodes), static_cast<unsigned long long>(totals.ways),
                static_cast<unsigned long long>(totals.relations), static_cast<unsigned long long>(totals.faults));
}

// What is in a blob that has no fault itself.
static std::uint8_t exact_content(const std::uint8_t *frame, const pbfrow_blob &found, std::uint64_t offset, Totals &totals) {
    static Exact payload;
    static int large_ones = 12;
    const auto length = static_cast<std::size_t>(found.payload_length);
    const std::uint8_t *block = copied(payload, frame + found.payload_at, length);
    if (found.kind == 2) return 0;
    if (found.kind == 0) return exact_header(block, length, offset);
    pbfrow_counts counts;
    const std::uint8_t status = exact_block(block, length, offset, counts);
    if (status == 0 && (length < 4000 || large_ones-- > 0)) short_columns(block, length, offset, counts);
    totals.nodes += counts.nodes, totals.ways += counts.ways, totals.relations += counts.relations;
    return status;
}

// Checks one frame, and answers its length; 0 where nothing behind it can be read.
static std::size_t exact_frame(const std::uint8_t *bytes, std::size_t left, std::uint64_t offset, Totals &totals) {
    static Exact frame;
    static int short_ones = 200;
    pbfrow_blob there, found, before;
    std::memset(&before, untouched, sizeof before);
    there = found = before;
    const std::uint8_t expected = pbfrow_blob_at(bytes, left, offset, &there);
    const bool is_frame = !pbfrow::detail::is_of_a_frame(expected);
    const std::size_t length = is_frame ? static_cast<std::size_t>(there.length) : left;
    const std::uint8_t *copy = copied(frame, bytes, length);
    std::uint8_t status = pbfrow_blob_at(copy, length, offset, &found);
    expect(status == expected, "what is behind a frame changes its fault", offset);
    expect(is_frame || std::memcmp(&found, &before, sizeof found) == 0, "a frame's fault has changed the blob", offset);
    if (!is_frame) return print_fault(totals, status, offset, 0), 0;
    expect(found.length == length && found.payload_at + found.payload_length <= length, "a payload is outside its frame", offset);
    expect((status == 21) == (found.compression != 0), "a compression without need, or none", offset);
    if (length < 1000 && short_ones-- > 0) short_frames(copy, length, offset);
    totals.blobs++;
    if (status == 0) status = exact_content(copy, found, offset, totals);
    if (status != 0) print_fault(totals, status, offset, found.compression);
    return length;
}

static void exact(const pbfrow::MappedFile &file) {
    Totals totals{};
    if (file.size() == 0) print_fault(totals, 61, 0, 0);
    for (std::size_t offset = 0; offset < file.size();) {
        const std::size_t length = exact_frame(file.data() + offset, file.size() - offset, offset, totals);
        if (length == 0) break;
        offset += length;
    }
    print_totals(totals);
}

// ---- refused

static long growths, refused_growth, held;

#ifdef WRAPPED
// The growth of that number and all behind it, since less may be asked for where much was refused.
static bool is_refused() { return ++growths >= refused_growth && refused_growth != 0; }

extern "C" {
void *__real_malloc(std::size_t size);
void *__real_realloc(void *old, std::size_t size);
void __real_free(void *old);
void *__wrap_malloc(std::size_t size) {
    if (is_refused()) return nullptr;
    held++;
    return __real_malloc(size);
}
void *__wrap_realloc(void *old, std::size_t size) {
    if (is_refused()) return nullptr;
    held += old == nullptr;
    return __real_realloc(old, size);
}
void __wrap_free(void *old) {
    held -= old != nullptr;
    __real_free(old);
}
}
#endif

// A header as it is read while the growth of that number, and all behind it, are refused; it takes no more than a few.
static void refused_header(const pbfrow::View<std::uint8_t> &block, std::uint64_t offset) {
    std::uint64_t ends[64];
    std::uint8_t bytes[4096];
    pbfrow_texts texts = {{ends, 64}, {bytes, sizeof bytes}};
    for (refused_growth = 1, growths = 0, held = 0; refused_growth < 100; refused_growth++, growths = 0) {
        pbfrow_header header, before;
        std::memset(&before, untouched, sizeof before);
        header = before;
        const std::uint8_t status = pbfrow_header_block(block.data(), block.size(), &header, &texts);
        expect(held == 0, "memory of a header isn't given back", offset);
        if (status == 0 && growths < refused_growth) break;
        expect(status == 65 && std::memcmp(&header, &before, sizeof header) == 0,
               "refused memory of a header isn't 65, or has changed it", offset);
    }
    refused_growth = 0;
}

static std::uint64_t refused(const pbfrow::MappedFile &file) {
    static Columns columns;
    std::uint64_t tried = 0;
    for (const pbfrow::Blob &blob : pbfrow::File(file)) {
        const pbfrow::View<std::uint8_t> block = blob.stored();
        if (blob.kind() == pbfrow::BlobKind::header && blob.status() == 0) refused_header(block, blob.offset());
        if (blob.kind() != pbfrow::BlobKind::data || blob.status() != 0) continue;
        pbfrow_counts counts;
        refused_growth = 0, growths = 0, held = 0;
        if (pbfrow_block_counts(block.data(), block.size(), &counts) != 0) continue;
        const long all = growths;
        expect(all > 0 && held == 0, "memory isn't counted, or isn't given back", blob.offset());
        const long step = all < 300 ? 1 : all / 100;
        for (refused_growth = 1; refused_growth <= all; refused_growth += step, tried++) {
            growths = 0;
            pbfrow_counts again = untouched_counts();
            expect(pbfrow_block_columns(block.data(), block.size(), &again, columns.take(counts, 0)) == 65,
                   "refused memory isn't 65", blob.offset());
            expect(columns.are_untouched() && are_same(again, untouched_counts()), "refused memory has changed something",
                   blob.offset());
            expect(held == 0, "memory isn't given back once some was refused", blob.offset());
        }
        refused_growth = 0;
    }
    return tried;
}

// ---- by pbfrow.hpp

template <typename Blobs> static void check(Blobs &&blobs) {
    Totals totals{};
    pbfrow::Block block;
    try {
        for (const pbfrow::Blob &blob : blobs) {
            totals.blobs++;
            try {
                block.read(blob);
            } catch (const pbfrow::Fault &fault) {
                expect(block.empty() && fault.offset() == blob.offset(), "elements of a bad blob", blob.offset());
                std::puts(fault.what());
                totals.faults++;
            }
            totals.nodes += block.nodes(), totals.ways += block.ways(), totals.relations += block.relations();
        }
    } catch (const pbfrow::Fault &fault) {
        std::puts(fault.what());
        totals.faults++;
    }
    print_totals(totals);
}

static void pieces(const pbfrow::MappedFile &file, std::size_t most) {
    std::size_t at = 0;
    check(pbfrow::Input([&](std::uint8_t *to, std::size_t room) {
        const std::size_t count = std::min({most, room, file.size() - at});
        if (count != 0) std::memcpy(to, file.data() + at, count);
        at += count;
        return count;
    }));
}

static void packed(const pbfrow::MappedFile &file, const std::string &way) {
    const auto turn_round = [&](pbfrow::Compression, pbfrow::View<std::uint8_t> bytes, std::uint64_t) {
        std::vector<std::uint8_t> turned(bytes.begin(), bytes.end());
        std::reverse(turned.begin(), turned.end());
        if (way == "short") turned.pop_back();
        if (way == "long") turned.push_back(0);
        if (way == "empty") turned.clear();
        return turned;
    };
    if (way == "none") check(pbfrow::File(file));
    else check(pbfrow::File(file, turn_round));
}

// What a thread makes of every blob of a file. The ids of all elements, in order, tell whether two threads read the same.
static std::uint64_t digest(const pbfrow::File &file) {
    std::uint64_t sum = 14695981039346656037u;
    pbfrow::Block block;
    for (const pbfrow::Blob &blob : file) {
        block.read(blob);
        for (const pbfrow::Element element : block) sum = (sum ^ static_cast<std::uint64_t>(element.id())) * 1099511628211u;
    }
    return sum;
}

static void threads(const pbfrow::MappedFile &file, std::size_t count) {
    const pbfrow::File blobs(file);
    const std::uint64_t expected = digest(blobs);
    std::vector<std::thread> all;
    for (std::size_t at = 0; at < count; at++)
        all.emplace_back([&] { expect(digest(blobs) == expected, "a thread reads something else", 0); });
    for (std::thread &thread : all) thread.join();
}

static void small() {
#if defined(__GLIBC__) && !defined(FROM_MALLOC)
    expect(pbfrow::keep_memory(), "malloc doesn't keep its memory", 0);
#endif
    static const std::uint8_t frame[] = {0, 0, 0, 9, 0x0A, 5, 'E', 'x', 't', 'r', 'a', 0x18, 0};
    pbfrow_blob blob, before;
    std::memset(&before, untouched, sizeof before);
    blob = before;
    const std::uint64_t greatest = std::uint64_t(1) << 62;
    expect(pbfrow_blob_at(frame, sizeof frame, greatest - 13, &blob) == 0 && blob.kind == 2 && blob.length == 13
               && blob.payload_length == 0,
           "a frame that ends at 2^62", 0);
    blob = before;
    for (const std::uint64_t offset : {greatest - 12, greatest, ~std::uint64_t(0)}) {
        expect(pbfrow_blob_at(frame, sizeof frame, offset, &blob) == 60, "a frame that would end above 2^62", offset);
        expect(std::memcmp(&blob, &before, sizeof blob) == 0, "fault 60 has changed the blob", offset);
    }
    for (int number = 0; number < 256; number++) {
        std::uint8_t name[24];
        std::memset(name, untouched, sizeof name);
        const std::size_t length = pbfrow_fault_name(static_cast<std::uint8_t>(number), 0, name, sizeof name);
        expect(length <= sizeof name, "a name of more than 24 bytes", number);
        if (length == 0) continue;
        std::printf("%d %.*s\n", number, static_cast<int>(length), reinterpret_cast<const char *>(name));
        std::uint8_t narrow[24];
        std::memset(narrow, untouched, sizeof narrow);
        expect(pbfrow_fault_name(static_cast<std::uint8_t>(number), 0, narrow, length - 1) == length && narrow[0] == untouched,
               "a name in an array that is too short", number);
    }
    for (int compression = 1; compression <= 5; compression++)
        std::printf("21 %s\n", pbfrow::fault_name(21, static_cast<pbfrow::Compression>(compression)).c_str());
    check(pbfrow::File(nullptr, 0));
    check(pbfrow::File(frame, 0));
    check(pbfrow::File(frame, sizeof frame));
    check(pbfrow::File(frame, sizeof frame, {}, 13)); // a part of a file
    check(pbfrow::File(frame, 0, {}, 13));
}

int main(int argc, char **argv) {
    const std::string way = argc > 1 ? argv[1] : "";
    const bool has_word = way == "pieces" || way == "packed" || way == "threads";
    const std::string word = has_word && argc > 2 ? argv[2] : "";
    std::uint64_t tried = 0;
    if (way == "small") small();
    for (int at = has_word ? 3 : 2; at < argc; at++) {
        const pbfrow::MappedFile file(argv[at]);
        if (way == "exact") exact(file);
        else if (way == "refused") tried += refused(file);
        else if (way == "pieces") pieces(file, std::stoul(word));
        else if (way == "packed") packed(file, word);
        else if (way == "threads") threads(file, std::stoul(word));
        else return 2;
    }
    if (way == "refused") std::printf("%llu growths refused\n", static_cast<unsigned long long>(tried));
    return 0;
}
