// pbfrow: the proved reader of OpenStreetMap PBF files, for C++17. It needs pbfrow.h and the standard library alone.
//
//     pbfrow::MappedFile bytes("country-raw.osm.pbf");
//     pbfrow::Block block;
//     for (const pbfrow::Blob &blob : pbfrow::File(bytes)) {
//         block.read(blob);
//         for (pbfrow::Element element : block)
//             if (element.kind() == pbfrow::Kind::way) std::cout << element.id() << '\n';
//     }
//
// What is wrong with a file is thrown as a pbfrow::Fault, with the number, name and offset that the program pbfrow prints. A
// frame's fault comes from the loop itself, which it ends. All others come from what reads the blob in the loop's body: catch
// them there to go on with the blobs behind it.
//
// Coordinates are in nanodegrees (`degrees` turns them into degrees) and times in milliseconds since 1970. Several threads may
// decode at once, each with a Block of its own: a Blob is small, and may be copied and handed to them.
#ifndef PBFROW_HPP
#define PBFROW_HPP

#include "pbfrow.h"

#include <algorithm>
#include <cerrno>
#include <cstddef>
#include <cstdint>
#include <functional>
#include <iterator>
#include <memory>
#include <optional>
#include <stdexcept>
#include <string>
#include <string_view>
#include <system_error>
#include <utility>
#include <vector>

#if defined(__unix__) || defined(__APPLE__)
#define PBFROW_HAS_MAPPED_FILE 1
#include <fcntl.h>
#include <sys/mman.h>
#include <sys/stat.h>
#include <unistd.h>
#endif
#if defined(__GLIBC__)
#include <malloc.h>
#endif

namespace pbfrow {

enum class Kind : std::uint8_t { node, way, relation };
enum class BlobKind : std::uint8_t { header, data, other };
enum class Compression : std::uint8_t { none, zlib, lzma, bzip2, lz4, zstd };

inline double degrees(std::int64_t nanodegrees) { return static_cast<double>(nanodegrees) / 1e9; }

// Lets malloc keep the memory that blocks take and give back, where the C library is glibc, and says whether it did. Decoding
// then takes about a third less time, since the kernel needn't clear the same pages for each block. It changes malloc for the
// whole process, which then holds on to the memory of its largest block: so it is left to the program, which calls it once as it
// begins.
inline bool keep_memory() {
#if defined(__GLIBC__)
    constexpr int largest_threshold_of_glibc = 32 << 20, half_a_gigabyte = 512 << 20;
    return mallopt(M_MMAP_THRESHOLD, largest_threshold_of_glibc) != 0 && mallopt(M_TRIM_THRESHOLD, half_a_gigabyte) != 0;
#else
    return false;
#endif
}

// ---- what every part uses

// Items of another object, which has to outlive this.
template <typename Item> class View {
  public:
    View() = default;
    View(const Item *items, std::size_t size) : items_(items), size_(size) {}

    const Item *data() const { return items_; }
    std::size_t size() const { return size_; }
    bool empty() const { return size_ == 0; }
    const Item *begin() const { return items_; }
    const Item *end() const { return items_ + size_; }
    const Item &operator[](std::size_t index) const { return items_[index]; }

  private:
    const Item *items_ = nullptr;
    std::size_t size_ = 0;
};

// The name of the fault of this number, such as "BlobCut"; empty where there is none.
inline std::string fault_name(std::uint8_t number, Compression compression = Compression::none) {
    std::uint8_t name[64];
    const std::size_t length = pbfrow_fault_name(number, static_cast<std::uint8_t>(compression), name, sizeof name);
    return std::string(name, name + (length <= sizeof name ? length : 0));
}

// What is wrong with a file, and the offset of the frame that it is wrong with. what() is the line that the program prints:
// "fault 21 CompressedZlib at 0".
class Fault : public std::runtime_error {
  public:
    Fault(std::uint8_t number, std::uint64_t offset, Compression compression = Compression::none)
        : Fault(number, offset, fault_name(number, compression)) {}

    std::uint8_t number() const noexcept { return number_; }
    const std::string &name() const noexcept { return *name_; }
    std::uint64_t offset() const noexcept { return offset_; }

  private:
    Fault(std::uint8_t number, std::uint64_t offset, const std::string &name)
        : std::runtime_error("fault " + std::to_string(number) + " " + name + " at " + std::to_string(offset)), number_(number),
          offset_(offset), name_(std::make_shared<std::string>(name)) {}

    std::uint8_t number_;
    std::uint64_t offset_;
    std::shared_ptr<const std::string> name_; // shared, so that copying an exception throws nothing
};

// ---- blobs

// Decompresses a payload: it gets the compressed bytes and how many bytes the blob says that the payload has, 1 to 33,554,431. An
// answer of any other length is Fault 21, so one that can't go on answers with no bytes. A blob that doesn't say how many bytes
// there are is Fault 21 as well.
using Decompressor =
    std::function<std::vector<std::uint8_t>(Compression compression, View<std::uint8_t> compressed, std::uint64_t raw_size)>;

// The payload of a blob, either among the bytes of the file or, where it was compressed, in memory of its own.
class Payload {
  public:
    explicit Payload(View<std::uint8_t> stored) : view_(stored) {}
    explicit Payload(std::vector<std::uint8_t> &&decompressed) : owned_(std::move(decompressed)) {
        owned_.push_back(0); // so that there is an address where there are no bytes
        view_ = {owned_.data(), owned_.size() - 1};
    }
    Payload(Payload &&) = default; // the bytes of a vector stay where they are when it is moved
    Payload &operator=(Payload &&) = default;

    const std::uint8_t *data() const { return view_.data(); }
    std::size_t size() const { return view_.size(); }

  private:
    std::vector<std::uint8_t> owned_;
    View<std::uint8_t> view_;
};

// A blob of a file: where it is, and what its frame says. It points at the bytes of the file, which have to outlive it.
class Blob {
  public:
    Blob() = default;
    Blob(const std::uint8_t *frame, std::uint64_t offset, std::uint8_t status, const pbfrow_blob &found,
         std::shared_ptr<const Decompressor> decompressor)
        : frame_(frame), offset_(offset), status_(status), found_(found), decompressor_(std::move(decompressor)) {}

    std::uint64_t offset() const { return offset_; }       // of its frame, in bytes from the front of the file
    std::uint64_t length() const { return found_.length; } // of its frame, in bytes
    BlobKind kind() const { return static_cast<BlobKind>(found_.kind); }
    std::uint8_t status() const { return status_; } // 0, or the number of its fault: 20 to 23, 61, 62. 21: it is compressed
    Compression compression() const { return static_cast<Compression>(found_.compression); }
    std::uint64_t raw_size() const { return found_.raw_size; } // of a compressed one, as it says

    // The payload as it is stored: raw or compressed. None where the blob is of another kind, or has another fault than 21.
    View<std::uint8_t> stored() const { return {frame_ + found_.payload_at, static_cast<std::size_t>(found_.payload_length)}; }

    // The raw payload, or the blob's fault. A compressed one is decompressed anew by each call.
    Payload payload() const {
        constexpr std::uint64_t largest_payload = 33554431;
        if (status_ == 0) return Payload(stored());
        if (status_ != 21 || decompressor_ == nullptr || raw_size() == 0 || raw_size() > largest_payload) throw fault(status_);
        std::vector<std::uint8_t> bytes = (*decompressor_)(compression(), stored(), raw_size());
        if (bytes.size() != raw_size()) throw fault(status_);
        return Payload(std::move(bytes));
    }

    // A fault of this blob or of its payload.
    Fault fault(std::uint8_t number) const { return Fault(number, offset_, compression()); }

  private:
    const std::uint8_t *frame_ = nullptr;
    std::uint64_t offset_ = 0;
    std::uint8_t status_ = 0;
    pbfrow_blob found_{};
    std::shared_ptr<const Decompressor> decompressor_;
};

// Goes over the blobs of what has a `next`, which answers false at the end.
template <typename Source> class BlobIterator {
  public:
    using iterator_category = std::input_iterator_tag;
    using value_type = Blob;
    using difference_type = std::ptrdiff_t;
    using pointer = const Blob *;
    using reference = const Blob &;

    BlobIterator() = default; // the end
    explicit BlobIterator(Source source) : source_(std::move(source)) { ++*this; }

    const Blob &operator*() const { return blob_; }
    const Blob *operator->() const { return &blob_; }
    BlobIterator &operator++() {
        is_at_end_ = !source_.next(blob_);
        return *this;
    }
    void operator++(int) { ++*this; }
    bool operator==(const BlobIterator &other) const { return is_at_end_ == other.is_at_end_; }
    bool operator!=(const BlobIterator &other) const { return !(*this == other); }

  private:
    Source source_;
    Blob blob_;
    bool is_at_end_ = true;
};

namespace detail {

inline bool is_of_a_frame(std::uint8_t status) { return (status >= 10 && status <= 19) || status == 60; }

inline std::shared_ptr<const Decompressor> shared(Decompressor decompressor) {
    return decompressor ? std::make_shared<const Decompressor>(std::move(decompressor)) : nullptr;
}

// A number, unless it is the one that stands for none.
template <typename Number> std::optional<Number> unless(Number none, Number number) {
    return number == none ? std::nullopt : std::optional<Number>(number);
}

// Where what `ends` counts begins for the item at this index.
template <typename Ends> std::uint64_t first(const Ends &ends, std::size_t index) { return index == 0 ? 0 : ends[index - 1]; }

} // namespace detail

#ifdef PBFROW_HAS_MAPPED_FILE
// A file in memory, as the system reads it in. std::system_error where it can't be opened, or is a folder, a pipe or a device,
// which can't be mapped (pbfrow::Input reads a pipe). Nothing may make the file shorter meanwhile: the process would be killed.
class MappedFile {
  public:
    explicit MappedFile(const std::string &path) {
        // a pipe that nobody writes to would be waited for
        const int file = ::open(path.c_str(), O_RDONLY | O_CLOEXEC | O_NONBLOCK);
        if (file < 0) throw std::system_error(errno, std::generic_category(), path);
        const int error = map(file);
        ::close(file);
        if (error != 0)
            throw std::system_error(error, std::generic_category(),
                                    path + (error == ESPIPE ? ": not a file, but a pipe or a device" : ""));
    }
    MappedFile(MappedFile &&other) noexcept
        : bytes_(std::exchange(other.bytes_, nullptr)), size_(std::exchange(other.size_, 0)) {}
    MappedFile &operator=(MappedFile &&other) noexcept {
        std::swap(bytes_, other.bytes_);
        std::swap(size_, other.size_);
        return *this;
    }
    ~MappedFile() {
        if (bytes_ != nullptr) ::munmap(bytes_, size_);
    }

    const std::uint8_t *data() const { return static_cast<const std::uint8_t *>(bytes_); }
    std::size_t size() const { return size_; }

  private:
    int map(int file) {
        struct stat status;
        if (::fstat(file, &status) != 0) return errno;
        if (S_ISDIR(status.st_mode)) return EISDIR;
        if (!S_ISREG(status.st_mode)) return ESPIPE;
        if (status.st_size == 0) return 0; // no bytes can't be mapped
        void *bytes = ::mmap(nullptr, static_cast<std::size_t>(status.st_size), PROT_READ, MAP_PRIVATE, file, 0);
        if (bytes == MAP_FAILED) return errno;
        bytes_ = bytes;
        size_ = static_cast<std::size_t>(status.st_size);
        return 0;
    }

    void *bytes_ = nullptr;
    std::size_t size_ = 0;
};
#endif

// The blobs of a file that is in memory, or of a part of one that begins at `offset`. The bytes have to outlive it and its blobs.
// Going over it throws the fault of a frame, and 61 where the whole file is empty.
class File {
  public:
    File(const std::uint8_t *bytes, std::size_t size, Decompressor decompressor = {}, std::uint64_t offset = 0)
        : cursor_{bytes, size, offset, detail::shared(std::move(decompressor))} {
        if (bytes == nullptr && size != 0) throw std::invalid_argument("pbfrow::File: no bytes");
    }
#ifdef PBFROW_HAS_MAPPED_FILE
    explicit File(const MappedFile &file, Decompressor decompressor = {})
        : File(file.data(), file.size(), std::move(decompressor)) {}
    explicit File(MappedFile &&file, Decompressor decompressor = {}) = delete; // its bytes would be gone at once
#endif

    class Cursor {
      public:
        bool next(Blob &blob) {
            if (left == 0 && offset != 0) return false;
            if (left == 0) throw Fault(61, 0);
            pbfrow_blob found;
            const std::uint8_t status = pbfrow_blob_at(bytes, left, offset, &found);
            if (detail::is_of_a_frame(status)) throw Fault(status, offset);
            blob = Blob(bytes, offset, status, found, decompressor);
            bytes += found.length;
            left -= static_cast<std::size_t>(found.length);
            offset += found.length;
            return true;
        }

        const std::uint8_t *bytes = nullptr;
        std::size_t left = 0;
        std::uint64_t offset = 0;
        std::shared_ptr<const Decompressor> decompressor;
    };
    using Iterator = BlobIterator<Cursor>;

    Iterator begin() const { return Iterator(cursor_); }
    Iterator end() const { return Iterator(); }

  private:
    Cursor cursor_;
};

// The blobs of an input that comes in pieces, such as a pipe. It holds a frame or two at a time: a blob, and what points at it,
// lasts until the next one is read.
class Input {
  public:
    // Puts bytes at `to`, at most `room`, and says how many; 0 at the end. It has to throw where reading fails: an end between
    // two frames is that of a whole file.
    using Read = std::function<std::size_t(std::uint8_t *to, std::size_t room)>;

    explicit Input(Read read, Decompressor decompressor = {})
        : read_(std::move(read)), decompressor_(detail::shared(std::move(decompressor))), buffer_(first_room) {}
    Input(const Input &) = delete;
    Input &operator=(const Input &) = delete;

    // Reads the next blob, or answers false at the end. It throws as going over a File does.
    bool next(Blob &blob) {
        for (;;) {
            const std::size_t held = end_ - begin_;
            pbfrow_blob found;
            const std::uint8_t status = pbfrow_blob_at(buffer_.data() + begin_, held, offset_, &found);
            if ((status == 10 || status == 12 || status == 18) && read_more()) continue;
            if (held == 0 && offset_ != 0) return false;
            if (held == 0) throw Fault(61, 0);
            if (detail::is_of_a_frame(status)) throw Fault(status, offset_);
            blob = Blob(buffer_.data() + begin_, offset_, status, found, decompressor_);
            begin_ += static_cast<std::size_t>(found.length);
            offset_ += found.length;
            return true;
        }
    }

    class Cursor {
      public:
        bool next(Blob &blob) { return input->next(blob); }
        Input *input = nullptr;
    };
    using Iterator = BlobIterator<Cursor>;

    Iterator begin() { return Iterator(Cursor{this}); }
    Iterator end() { return Iterator(); }

  private:
    static constexpr std::size_t first_room = 256 << 10;

    // Whether more of the input came. What is held moves to the front of the buffer, which is made larger once that fills it.
    bool read_more() {
        std::copy(buffer_.begin() + static_cast<std::ptrdiff_t>(begin_), buffer_.begin() + static_cast<std::ptrdiff_t>(end_),
                  buffer_.begin());
        end_ -= begin_;
        begin_ = 0;
        if (end_ == buffer_.size()) buffer_.resize(2 * buffer_.size());
        const std::size_t count = read_(buffer_.data() + end_, buffer_.size() - end_);
        end_ += count;
        return count != 0;
    }

    Read read_;
    std::shared_ptr<const Decompressor> decompressor_;
    std::vector<std::uint8_t> buffer_;
    std::size_t begin_ = 0, end_ = 0; // of what is held
    std::uint64_t offset_ = 0;        // of its front in the input
};

// ---- what a header says

struct Box {
    std::int64_t left, right, top, bottom; // nanodegrees
};

struct Header {
    // Reads the header in this blob, which is one of BlobKind::header, or throws its fault.
    explicit Header(const Blob &blob) {
        if (blob.kind() != BlobKind::header) throw std::invalid_argument("pbfrow::Header: the blob is no OSMHeader");
        read(blob, blob.payload());
    }

    std::optional<Box> box;
    std::vector<std::string> required, optional; // features
    std::optional<std::string> program, source, replication_url;
    std::optional<std::int64_t> replication_timestamp; // seconds since 1970
    std::optional<std::int64_t> replication_sequence;

  private:
    void read(const Blob &blob, const Payload &payload) {
        pbfrow_header header{};
        std::vector<std::uint64_t> ends(16);
        std::vector<std::uint8_t> bytes(512);
        for (;;) {
            pbfrow_texts texts{{ends.data(), ends.size()}, {bytes.data(), bytes.size()}};
            const std::uint8_t status = pbfrow_header_block(payload.data(), payload.size(), &header, &texts);
            if (status == 0) break;
            if (status != 72) throw blob.fault(status);
            ends.resize(std::max<std::uint64_t>(ends.size(), header.texts));
            bytes.resize(std::max<std::uint64_t>(bytes.size(), header.text_bytes));
        }
        if (header.has_bbox != 0) box = Box{header.left, header.right, header.top, header.bottom};
        if (header.has_timestamp != 0) replication_timestamp = header.timestamp;
        if (header.has_sequence != 0) replication_sequence = header.sequence;
        take_texts(header, ends, bytes);
    }

    void take_texts(const pbfrow_header &header, const std::vector<std::uint64_t> &ends, const std::vector<std::uint8_t> &bytes) {
        std::size_t index = 0;
        const auto next = [&] {
            const std::uint64_t begin = detail::first(ends, index);
            return std::string(reinterpret_cast<const char *>(bytes.data()) + begin,
                               static_cast<std::size_t>(ends[index++] - begin));
        };
        while (index < header.required) required.push_back(next());
        while (index < header.required + header.optional) optional.push_back(next());
        if (header.has_program != 0) program = next();
        if (header.has_source != 0) source = next();
        if (header.has_url != 0) replication_url = next();
    }
};

// ---- elements

class Block;

// The items of a block from one index to another; each is made as it is asked for.
template <typename Item> class Items {
  public:
    class Iterator {
      public:
        using iterator_category = std::input_iterator_tag;
        using value_type = Item;
        using difference_type = std::ptrdiff_t;
        using pointer = void;
        using reference = Item;

        Iterator() = default;
        Iterator(const Block *block, std::size_t index) : block_(block), index_(index) {}
        Item operator*() const { return Item(*block_, index_); }
        Iterator &operator++() { return ++index_, *this; }
        Iterator operator++(int) { return {block_, index_++}; }
        bool operator==(const Iterator &other) const { return index_ == other.index_; }
        bool operator!=(const Iterator &other) const { return index_ != other.index_; }

      private:
        const Block *block_ = nullptr;
        std::size_t index_ = 0;
    };

    Items(const Block &block, std::size_t first, std::size_t end) : block_(&block), first_(first), end_(end) {}
    std::size_t size() const { return end_ - first_; }
    bool empty() const { return end_ == first_; }
    Iterator begin() const { return {block_, first_}; }
    Iterator end() const { return {block_, end_}; }
    Item operator[](std::size_t index) const { return Item(*block_, first_ + index); }

  private:
    const Block *block_;
    std::size_t first_, end_;
};

class Tag {
  public:
    Tag(const Block &block, std::size_t index) : block_(&block), index_(index) {}
    std::string_view key() const;
    std::string_view value() const;

  private:
    const Block *block_;
    std::size_t index_;
};

class Member {
  public:
    Member(const Block &block, std::size_t index) : block_(&block), index_(index) {}
    Kind kind() const;
    std::int64_t id() const;
    std::string_view role() const;

  private:
    const Block *block_;
    std::size_t index_;
};

// An element of a block, which has to outlive it. What the file doesn't say is std::nullopt.
class Element {
  public:
    Element(const Block &block, std::size_t index) : block_(&block), index_(index) {}

    std::size_t index() const { return index_; } // in the columns of the block
    Kind kind() const;
    std::int64_t id() const;
    std::int64_t lat() const; // of a node, in nanodegrees; else 0
    std::int64_t lon() const;
    std::optional<std::int32_t> version() const;
    std::optional<std::int64_t> time() const; // milliseconds since 1970
    std::optional<std::int64_t> changeset() const;
    std::optional<std::int32_t> uid() const;
    std::optional<std::string_view> user() const;
    std::optional<bool> visible() const; // in files with history
    Items<Tag> tags() const;
    std::optional<std::string_view> tag(std::string_view key) const; // the value of the first tag with this key
    View<std::int64_t> refs() const;                                 // the ids of a way's nodes
    Items<Member> members() const;                                   // of a relation

  private:
    const Block *block_;
    std::size_t index_;
};

// The elements of one block in columns, one block after the other: the arrays are kept, and grow where a block needs more. What
// it gives (views, elements, texts) lasts until it reads the next block.
class Block {
  public:
    Block() { make_room(); }

    // Reads the elements of a blob, or throws its fault; then there are none. A blob of another kind has no elements, but the
    // header in an OSMHeader is tested, so that no file is read that requires a feature which pbfrow doesn't know.
    void read(const Blob &blob) {
        counts_ = {};
        if (blob.kind() == BlobKind::header) return static_cast<void>(Header(blob));
        const Payload payload = blob.payload();
        if (blob.kind() == BlobKind::other) return;
        const std::uint8_t status = decode(payload.data(), payload.size());
        if (status != 0) throw blob.fault(status);
    }

    // The same of a raw payload, which is that of an OSMData blob at `offset`.
    void read(const std::uint8_t *payload, std::size_t length, std::uint64_t offset = 0) {
        const std::uint8_t status = decode(payload, length);
        if (status != 0) throw Fault(status, offset);
    }

    const pbfrow_counts &counts() const { return counts_; }
    std::size_t size() const { return counts_.elements; }
    bool empty() const { return counts_.elements == 0; }
    std::size_t nodes() const { return counts_.nodes; }
    std::size_t ways() const { return counts_.ways; }
    std::size_t relations() const { return counts_.relations; }

    Items<Element> elements() const { return {*this, 0, size()}; }
    Items<Element>::Iterator begin() const { return elements().begin(); }
    Items<Element>::Iterator end() const { return elements().end(); }
    Element operator[](std::size_t index) const { return Element(*this, index); }

    // The text of an index in a column of this block. (Two indexes may name equal texts.)
    std::string_view text(std::int32_t index) const {
        const auto at = static_cast<std::size_t>(index);
        const std::uint64_t begin = detail::first(text_ends_, at);
        return {reinterpret_cast<const char *>(text_bytes_.data()) + begin, static_cast<std::size_t>(text_ends_[at] - begin)};
    }

    // ---- the columns: one item for each element; pbfrow.h says what stands for what isn't there
    View<Kind> kinds() const { return {kinds_.data(), counts_.elements}; }
    View<std::int64_t> ids() const { return {ids_.data(), counts_.elements}; }
    View<std::int64_t> lats() const { return {lats_.data(), counts_.elements}; }
    View<std::int64_t> lons() const { return {lons_.data(), counts_.elements}; }
    View<std::int32_t> versions() const { return {versions_.data(), counts_.elements}; }
    View<std::int64_t> times() const { return {times_.data(), counts_.elements}; }
    View<std::int64_t> changesets() const { return {changesets_.data(), counts_.elements}; }
    View<std::int32_t> uids() const { return {uids_.data(), counts_.elements}; }
    View<std::int32_t> users() const { return {users_.data(), counts_.elements}; }
    View<std::uint8_t> visible() const { return {visible_.data(), counts_.elements}; }
    // where the tags (refs, members) of each element end
    View<std::uint64_t> tag_ends() const { return {tag_ends_.data(), counts_.elements}; }
    View<std::uint64_t> ref_ends() const { return {ref_ends_.data(), counts_.elements}; }
    View<std::uint64_t> member_ends() const { return {member_ends_.data(), counts_.elements}; }
    // ---- one item for each tag, ref, member or text
    View<std::int32_t> tag_keys() const { return {tag_keys_.data(), counts_.tags}; }
    View<std::int32_t> tag_values() const { return {tag_values_.data(), counts_.tags}; }
    View<std::int64_t> refs() const { return {refs_.data(), counts_.refs}; }
    View<Kind> member_kinds() const { return {member_kinds_.data(), counts_.members}; }
    View<std::int64_t> member_ids() const { return {member_ids_.data(), counts_.members}; }
    View<std::int32_t> member_roles() const { return {member_roles_.data(), counts_.members}; }
    View<std::uint64_t> text_ends() const { return {text_ends_.data(), counts_.texts}; }
    View<std::uint8_t> text_bytes() const { return {text_bytes_.data(), counts_.text_bytes}; }

  private:
    // It is decoded again only where an array was too short.
    std::uint8_t decode(const std::uint8_t *payload, std::size_t length) {
        counts_ = {};
        pbfrow_counts counts{};
        std::uint8_t status = call(payload, length, counts);
        if (status == 72) {
            counts_ = counts;
            make_room();
            status = call(payload, length, counts);
        }
        counts_ = status == 0 ? counts : pbfrow_counts{};
        return status;
    }

    std::uint8_t call(const std::uint8_t *payload, std::size_t length, pbfrow_counts &counts) {
        pbfrow_columns columns{{array(kinds_), array(ids_), array(lats_), array(lons_), array(versions_), array(times_),
                                array(changesets_), array(uids_), array(users_), array(visible_)},
                               {array(tag_ends_), array(tag_keys_), array(tag_values_)},
                               {array(ref_ends_), array(refs_)},
                               {array(member_ends_), array(member_kinds_), array(member_ids_), array(member_roles_)},
                               {array(text_ends_), array(text_bytes_)}};
        return pbfrow_block_columns(payload, length, &counts, &columns);
    }

    static pbfrow_bytes array(std::vector<std::uint8_t> &column) { return {column.data(), column.size()}; }
    static pbfrow_bytes array(std::vector<Kind> &column) {
        return {reinterpret_cast<std::uint8_t *>(column.data()), column.size()};
    }
    static pbfrow_ints array(std::vector<std::int32_t> &column) { return {column.data(), column.size()}; }
    static pbfrow_longs array(std::vector<std::int64_t> &column) { return {column.data(), column.size()}; }
    static pbfrow_ends array(std::vector<std::uint64_t> &column) { return {column.data(), column.size()}; }

    // Makes each column long enough for the counts, and half as long again so that it seldom happens. None is empty, since no
    // pointer may be null.
    void make_room() {
        const std::uint64_t elements = counts_.elements;
        room(elements, kinds_, visible_, ids_, lats_, lons_, times_, changesets_, versions_, uids_, users_, tag_ends_, ref_ends_,
             member_ends_);
        room(counts_.tags, tag_keys_, tag_values_);
        room(counts_.refs, refs_);
        room(counts_.members, member_kinds_, member_ids_, member_roles_);
        room(counts_.texts, text_ends_);
        room(counts_.text_bytes, text_bytes_);
    }

    template <typename... Columns> static void room(std::uint64_t count, Columns &...columns) { (room_of(count, columns), ...); }

    template <typename Column> static void room_of(std::uint64_t count, Column &column) {
        if (!column.empty() && column.size() >= count) return;
        column.clear(); // nothing of it has to be kept
        column.resize(static_cast<std::size_t>(count + count / 2 + 1));
    }

    pbfrow_counts counts_{};
    std::vector<Kind> kinds_, member_kinds_;
    std::vector<std::uint8_t> visible_, text_bytes_;
    std::vector<std::int64_t> ids_, lats_, lons_, times_, changesets_, refs_, member_ids_;
    std::vector<std::int32_t> versions_, uids_, users_, tag_keys_, tag_values_, member_roles_;
    std::vector<std::uint64_t> tag_ends_, ref_ends_, member_ends_, text_ends_;
};

// How many elements, tags and so on a blob of BlobKind::data has, or its fault. It decodes all of the block for that.
inline pbfrow_counts count(const Blob &blob) {
    if (blob.kind() != BlobKind::data) throw std::invalid_argument("pbfrow::count: the blob is no OSMData");
    const Payload payload = blob.payload();
    pbfrow_counts counts{};
    const std::uint8_t status = pbfrow_block_counts(payload.data(), payload.size(), &counts);
    if (status != 0) throw blob.fault(status);
    return counts;
}

inline std::string_view Tag::key() const { return block_->text(block_->tag_keys()[index_]); }
inline std::string_view Tag::value() const { return block_->text(block_->tag_values()[index_]); }

inline Kind Member::kind() const { return block_->member_kinds()[index_]; }
inline std::int64_t Member::id() const { return block_->member_ids()[index_]; }
inline std::string_view Member::role() const { return block_->text(block_->member_roles()[index_]); }

inline Kind Element::kind() const { return block_->kinds()[index_]; }
inline std::int64_t Element::id() const { return block_->ids()[index_]; }
inline std::int64_t Element::lat() const { return block_->lats()[index_]; }
inline std::int64_t Element::lon() const { return block_->lons()[index_]; }
inline std::optional<std::int32_t> Element::version() const {
    return detail::unless<std::int32_t>(-1, block_->versions()[index_]);
}
inline std::optional<std::int64_t> Element::time() const {
    return detail::unless<std::int64_t>(INT64_MIN, block_->times()[index_]);
}
inline std::optional<std::int64_t> Element::changeset() const {
    return detail::unless<std::int64_t>(INT64_MIN, block_->changesets()[index_]);
}
inline std::optional<std::int32_t> Element::uid() const {
    return detail::unless<std::int32_t>(INT32_MIN, block_->uids()[index_]);
}
inline std::optional<std::string_view> Element::user() const {
    const std::int32_t user = block_->users()[index_];
    return user < 0 ? std::nullopt : std::optional<std::string_view>(block_->text(user));
}
inline std::optional<bool> Element::visible() const {
    const std::uint8_t visible = block_->visible()[index_];
    return visible > 1 ? std::nullopt : std::optional<bool>(visible == 1);
}
inline Items<Tag> Element::tags() const {
    const View<std::uint64_t> ends = block_->tag_ends();
    return {*block_, static_cast<std::size_t>(detail::first(ends, index_)), static_cast<std::size_t>(ends[index_])};
}
inline std::optional<std::string_view> Element::tag(std::string_view key) const {
    for (const Tag tag : tags())
        if (tag.key() == key) return tag.value();
    return std::nullopt;
}
inline View<std::int64_t> Element::refs() const {
    const View<std::uint64_t> ends = block_->ref_ends();
    const std::uint64_t first = detail::first(ends, index_);
    return {block_->refs().data() + first, static_cast<std::size_t>(ends[index_] - first)};
}
inline Items<Member> Element::members() const {
    const View<std::uint64_t> ends = block_->member_ends();
    return {*block_, static_cast<std::size_t>(detail::first(ends, index_)), static_cast<std::size_t>(ends[index_])};
}

} // namespace pbfrow
#endif
