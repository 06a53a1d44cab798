/* Counts what a PBF file holds, as `pbfrow check` does, in plain C.
 *
 *     count FILE
 *
 * Compile it with: cc -std=c11 -O2 count.c $(pkg-config --cflags --libs pbfrow) -o count */
#include <pbfrow.h>

#include <inttypes.h>
#include <stdio.h>
#include <stdlib.h>

typedef struct { uint64_t blobs, nodes, ways, relations, faults; } totals;

static void print_fault(uint8_t number, uint8_t compression, uint64_t offset) {
    uint8_t name[24];
    const int length = (int)pbfrow_fault_name(number, compression, name, sizeof name);
    printf("fault %d %.*s at %" PRIu64 "\n", number, length, (const char *)name, offset);
}

/* Makes an array longer if it is too short. It is never empty, since no pointer may be null. */
#define ROOM(array, count) \
    if ((array).length <= (count)) { \
        free((array).items); \
        (array).length = (size_t)((count) + (count) / 2 + 1); \
        (array).items = calloc((array).length, sizeof *(array).items); \
        if ((array).items == NULL) exit(2); \
    }

static void make_room(pbfrow_columns *columns, const pbfrow_counts *counts) {
    pbfrow_elements *elements = &columns->elements;
    ROOM(elements->kinds, counts->elements)
    ROOM(elements->ids, counts->elements)
    ROOM(elements->lats, counts->elements)
    ROOM(elements->lons, counts->elements)
    ROOM(elements->versions, counts->elements)
    ROOM(elements->times, counts->elements)
    ROOM(elements->changesets, counts->elements)
    ROOM(elements->uids, counts->elements)
    ROOM(elements->users, counts->elements)
    ROOM(elements->visible, counts->elements)
    ROOM(columns->tags.ends, counts->elements)
    ROOM(columns->tags.keys, counts->tags)
    ROOM(columns->tags.values, counts->tags)
    ROOM(columns->refs.ends, counts->elements)
    ROOM(columns->refs.ids, counts->refs)
    ROOM(columns->members.ends, counts->elements)
    ROOM(columns->members.kinds, counts->members)
    ROOM(columns->members.ids, counts->members)
    ROOM(columns->members.roles, counts->members)
    ROOM(columns->texts.ends, counts->texts)
    ROOM(columns->texts.bytes, counts->text_bytes)
}

/* Reads a block into the columns, once more where they were too short. */
static uint8_t read_block(const uint8_t *block, size_t length, pbfrow_columns *columns, totals *all) {
    pbfrow_counts counts = {0};
    uint8_t status = pbfrow_block_columns(block, length, &counts, columns);
    if (status == 72) {
        make_room(columns, &counts);
        status = pbfrow_block_columns(block, length, &counts, columns);
    }
    if (status != 0) return status;
    for (uint64_t at = 0; at < counts.elements; at++) {
        const uint8_t kind = columns->elements.kinds.items[at];
        *(kind == 0 ? &all->nodes : kind == 1 ? &all->ways : &all->relations) += 1;
    }
    return 0;
}

static uint8_t read_header(const uint8_t *block, size_t length) {
    uint64_t ends[16];
    uint8_t bytes[1024];
    pbfrow_texts texts = {{ends, 16}, {bytes, sizeof bytes}};
    pbfrow_header header;
    const uint8_t status = pbfrow_header_block(block, length, &header, &texts);
    return status == 72 ? 0 : status; /* a header with more texts is good all the same */
}

static void read_all(const uint8_t *bytes, size_t size, totals *all) {
    static pbfrow_columns columns;
    const pbfrow_counts none = {0};
    make_room(&columns, &none);
    if (size == 0) all->faults++, print_fault(61, 0, 0); /* an empty file has no header */
    for (size_t offset = 0; offset < size;) {
        pbfrow_blob blob = {0};
        uint8_t status = pbfrow_blob_at(bytes + offset, size - offset, offset, &blob);
        const uint8_t *payload = bytes + offset + blob.payload_at;
        if (status == 0 && blob.kind == 0) status = read_header(payload, (size_t)blob.payload_length);
        if (status == 0 && blob.kind == 1) status = read_block(payload, (size_t)blob.payload_length, &columns, all);
        if (status != 0) all->faults++, print_fault(status, blob.compression, offset);
        if (blob.length == 0) return; /* a fault of the frame: nothing behind it can be read */
        all->blobs++;
        offset += (size_t)blob.length;
    }
}

/* All bytes of the file, in memory that is never given back. */
static uint8_t *read_file(const char *path, size_t *size) {
    FILE *file = fopen(path, "rb");
    uint8_t *bytes = NULL;
    size_t room = 0, count = 1;
    *size = 0;
    while (file != NULL && count != 0) {
        if (*size == room) bytes = realloc(bytes, room = 2 * room + 65536);
        if (bytes == NULL) exit(2);
        count = fread(bytes + *size, 1, room - *size, file);
        *size += count;
    }
    if (file == NULL || ferror(file)) perror(path), exit(2);
    fclose(file);
    return bytes;
}

int main(int argc, char **argv) {
    if (argc != 2) return fputs("count FILE\n", stderr), 2;
    size_t size;
    const uint8_t *bytes = read_file(argv[1], &size);
    totals all = {0};
    read_all(bytes, size, &all);
    printf("blobs %" PRIu64 " nodes %" PRIu64 " ways %" PRIu64, all.blobs, all.nodes, all.ways);
    printf(" relations %" PRIu64 " faults %" PRIu64 "\n", all.relations, all.faults);
    return all.faults == 0 ? 0 : 1;
}
