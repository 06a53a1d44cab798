/* pbfrow: the proved reader of OpenStreetMap PBF files, for C and for what calls C.
 *
 * A file is read in three steps: pbfrow_blob_at finds the blob whose frame begins at a place of a buffer, pbfrow_header_block
 * reads the payload of an OSMHeader, and pbfrow_block_columns turns the payload of an OSMData blob into columns: one array for
 * all ids, one for all latitudes, and so on. The caller owns every array. The library keeps nothing after a call, neither a
 * pointer nor memory, so there is no handle to open or close, and several threads may call it at once, each over arrays of
 * its own. While it runs, a call takes memory by malloc and realloc, and gives all of it back by free; pbfrow_blob_at and
 * pbfrow_fault_name take none.
 *
 * A call that reads answers a status: 0, or the number of a fault, which is the same as in the messages of the program
 * pbfrow (its guide says what to do about each):
 *   10 to 14, 16 to 18, 60   of a frame: nothing behind it can be read
 *   61, 62                   of where an OSMHeader stands: at offset 0 there is none, or one stands behind it
 *   20 to 23                 of a blob; 21 is a compressed one, whose payload the caller may decompress
 *   30 to 33                 of a header block
 *   40 to 52                 of a block of elements
 *   65                       memory was refused, or a block has 2^31 texts
 *   72                       an array is too short; this library alone answers it, and it is no fault of the file
 * The same bytes always have the same fault: where there are several, the first in a fixed order, that of the parts of the file.
 *
 * What the caller owes, since nothing can check it. A call that breaks one of these may do anything:
 *   - No pointer is null, not even where the length beside it is 0: the proof knows no null pointer. Pass the address of any
 *     object there.
 *   - Each pointer is aligned for what it points at: 8 bytes for int64_t and uint64_t, 4 for int32_t, and each struct as the
 *     compiler lays it out.
 *   - As many items as a length says can be read, and those of the arrays that a call fills can be written. It doesn't
 *     matter what stands in these before the call.
 *   - The arrays and structs of one call don't overlap, in particular not with the bytes that it reads. No other thread
 *     writes to any of them until the call has returned.
 *   - A length is less than 2^63 bytes.
 *   - malloc, realloc and free come from one allocator. */
#ifndef PBFROW_H
#define PBFROW_H

#include <stddef.h>
#include <stdint.h>

#ifdef __cplusplus
extern "C" {
#endif

/* An array of the caller: where its first item is, and how many items there is room for. */
typedef struct { uint8_t *items; size_t length; } pbfrow_bytes;
typedef struct { int32_t *items; size_t length; } pbfrow_ints;
typedef struct { int64_t *items; size_t length; } pbfrow_longs;
typedef struct { uint64_t *items; size_t length; } pbfrow_ends;

/* Texts one behind the other: text i is bytes[ends[i - 1] .. ends[i]], where ends[-1] stands for 0. All of them are UTF-8, and
 * no NUL ends a text. */
typedef struct { pbfrow_ends ends; pbfrow_bytes bytes; } pbfrow_texts;

/* ---- a blob */

typedef struct {
    uint64_t length;         /* of the whole frame, in bytes: the next frame begins behind it */
    uint64_t payload_at;     /* where the payload begins, in bytes from the front of the frame; with 21, the compressed one */
    uint64_t payload_length; /* in bytes; 0 where there is none: in a blob of another type, and with 20, 22, 23, 61, 62 */
    uint64_t raw_size;       /* with 21, how many bytes the payload has once it is decompressed, as the blob says (nothing checks
                                it); 0 where it doesn't say, and without 21 */
    uint8_t kind;            /* 0 OSMHeader, 1 OSMData, 2 another type, whose blob isn't read */
    uint8_t compression;     /* with 21: 1 zlib, 2 lzma, 3 bzip2, 4 lz4, 5 zstd; else 0 */
} pbfrow_blob;

/* Finds the blob whose frame begins at the front of `bytes`, which stand at `offset` in the file, in bytes. Other frames may
 * follow it: the next is found by another call with `bytes` and `offset` moved on by `blob->length`.
 *
 * 0: `blob` is written, and its payload can be read.
 * 20 to 23, 61, 62: `blob` is written, and a reader may go on behind it. With 21 it says where the compressed payload is; with
 *   the others there is no payload.
 * 10 to 14, 16 to 18, 60: `blob` is left as it is, and nothing behind can be read, for it isn't known where the next frame
 *   begins. 10, 12 and 18 say that bytes are missing: where the buffer ends before the file does, call again with more of the
 *   file. 60 says that the frame would end above 2^62.
 *
 * No bytes (length 0) are 10. A whole file that is empty is no PBF file either, which the program reports as 61. */
uint8_t pbfrow_blob_at(const uint8_t *bytes, size_t length, uint64_t offset, pbfrow_blob *blob);

/* ---- a header block: the payload of an OSMHeader */

typedef struct {
    int64_t left, right, top, bottom;   /* the area that the file covers, in nanodegrees (any numbers); 0 without has_bbox */
    int64_t timestamp;                  /* osmosis_replication_timestamp, in seconds since 1970; 0 without has_timestamp */
    int64_t sequence;                   /* osmosis_replication_sequence_number; 0 without has_sequence */
    uint64_t required, optional;        /* how many features of each sort there are */
    uint64_t texts, text_bytes;         /* how many texts there are, and how many bytes they have together */
    uint8_t has_bbox, has_timestamp, has_sequence, has_program, has_source, has_url; /* 1, or 0 */
} pbfrow_header;

/* Reads a header block. `texts` gets the required features, the optional ones and then, each only where it is there, the program
 * that wrote the file, its source, and the replication base URL. Every required feature is one that pbfrow knows:
 * OsmSchema-V0.6, DenseNodes or HistoricalInformation.
 *
 * 0: `header` is written, and so are the first header->texts items of texts->ends.items and the first header->text_bytes of
 *   texts->bytes.items; what is behind those is left as it is.
 * 30 to 33: nothing is written. 33 says that the file requires a feature that pbfrow doesn't know: don't read its blocks, since
 *   they may mean something else.
 * 65: nothing is written.
 * 72: `header` is written, and the arrays of `texts` are left as they are: header->texts and header->text_bytes say how long
 *   they have to be. */
uint8_t pbfrow_header_block(const uint8_t *block, size_t length, pbfrow_header *header, pbfrow_texts *texts);

/* ---- a block: the payload of an OSMData blob */

/* How many items the columns of a block have. */
typedef struct {
    uint64_t elements, nodes, ways, relations; /* the first is the sum of the others */
    uint64_t tags, refs, members;
    uint64_t texts, text_bytes;
} pbfrow_counts;

/* One item for each element, in the order of the block. */
typedef struct {
    pbfrow_bytes kinds;       /* 0 node, 1 way, 2 relation */
    pbfrow_longs ids;
    pbfrow_longs lats, lons;  /* in nanodegrees; 0 of ways and relations */
    pbfrow_ints versions;     /* -1: not there */
    pbfrow_longs times;       /* in milliseconds since 1970; INT64_MIN: not there */
    pbfrow_longs changesets;  /* INT64_MIN: not there */
    pbfrow_ints uids;         /* INT32_MIN: not there */
    pbfrow_ints users;        /* the text of this index; -1: not there */
    pbfrow_bytes visible;     /* 1 visible, 0 deleted, 2 not said, as in a file without history */
} pbfrow_elements;

/* `ends` has one item for each element: where its tags (refs, members) end among all of the block. Those of element i are
 * ends[i - 1] .. ends[i], where ends[-1] stands for 0. The other columns have one item for each tag (ref, member). */
typedef struct { pbfrow_ends ends; pbfrow_ints keys, values; } pbfrow_tags;   /* the texts of these indexes */
typedef struct { pbfrow_ends ends; pbfrow_longs ids; } pbfrow_refs;           /* the nodes of ways, in order */
typedef struct {
    pbfrow_ends ends;
    pbfrow_bytes kinds;       /* 0 node, 1 way, 2 relation */
    pbfrow_longs ids;
    pbfrow_ints roles;        /* the texts of these indexes */
} pbfrow_members;             /* of relations, in order */

typedef struct {
    pbfrow_elements elements;
    pbfrow_tags tags;
    pbfrow_refs refs;
    pbfrow_members members;
    pbfrow_texts texts;       /* what the indexes of this block name, from 0: the texts of its string table in their order, used or
                                 not. Mostly each text is there once, but a block of tens of thousands has some twice: two indexes
                                 may name equal texts */
} pbfrow_columns;

/* Says how long the columns of a block are. It decodes all of the block for that: where the columns are wanted as well, call
 * pbfrow_block_columns at once, and again only after 72.
 *
 * 0: `counts` is written.
 * 40 to 52: `counts` is left as it is; the block has this fault, and no part of it is given.
 * 65: `counts` is left as it is. */
uint8_t pbfrow_block_counts(const uint8_t *block, size_t length, pbfrow_counts *counts);

/* Reads the elements of a block into columns. Ids, refs, coordinates, times and changesets are at most 2^62 - 1 away from 0; no
 * text has U+0000; every index, but for a user of -1, is that of a text.
 *
 * 0: `counts` is written, and so are the first items of each array, as many as `counts` says for it; what is behind those is left
 *   as it is.
 * 72: `counts` is written, and says how long each array has to be; some array is shorter. All arrays are left as they are.
 * 40 to 52, 65: nothing is written, as by pbfrow_block_counts.
 * The struct `columns` itself, its pointers and lengths, is never written to. */
uint8_t pbfrow_block_columns(const uint8_t *block, size_t length, pbfrow_counts *counts, pbfrow_columns *columns);

/* ---- the name of a fault */

/* The name that pbfrow's messages give the fault of this number, such as "BlobCut": ASCII, with no NUL behind it. That of 21
 * names the `compression` of the blob ("CompressedZlib"; "Compressed" for 0), which doesn't matter for other numbers. 72 is
 * "NoRoom".
 *
 * Answers how many bytes the name has, or 0 where no fault has this number. The name is written to the front of `name` if
 * `length` is large enough, and else nothing is written; 24 bytes always suffice. */
size_t pbfrow_fault_name(uint8_t number, uint8_t compression, uint8_t *name, size_t length);

#ifdef __cplusplus
}
#endif
#endif
