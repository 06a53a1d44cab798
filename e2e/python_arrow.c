/* A consumer of Arrow's C data interface, for the checks of the package pbfrow: it takes structs as the interface says, writes
 * their rows as lines, and releases them. It knows the forms that these tables have, and nothing of who made them.
 *
 * A row has its values with tabs between them; "%" is a missing one, and a list is in ( ), its items with commas between them.
 * In texts, the bytes that `pbfrow show` escapes are escaped as there. Each call answers 0, or the line that found what is
 * wrong. */
#include <pthread.h>
#include <stdint.h>
#include <stdio.h>
#include <string.h>

struct ArrowSchema {
    const char *format, *name, *metadata;
    int64_t flags, n_children;
    struct ArrowSchema **children, *dictionary;
    void (*release)(struct ArrowSchema *);
    void *private_data;
};
struct ArrowArray {
    int64_t length, null_count, offset, n_buffers, n_children;
    const void **buffers;
    struct ArrowArray **children, *dictionary;
    void (*release)(struct ArrowArray *);
    void *private_data;
};
struct ArrowArrayStream {
    int (*get_schema)(struct ArrowArrayStream *, struct ArrowSchema *);
    int (*get_next)(struct ArrowArrayStream *, struct ArrowArray *);
    const char *(*get_last_error)(struct ArrowArrayStream *);
    void (*release)(struct ArrowArrayStream *);
    void *private_data;
};

#define WANTED(holds) do { if (!(holds)) return __LINE__; } while (0)

static void escaped(FILE *out, const uint8_t *text, int64_t length) {
    for (int64_t i = 0; i < length; i++) {
        if (text[i] < 33 || text[i] == 127 || strchr("%=,@[]{}()", text[i])) fprintf(out, "%%%02X", text[i]);
        else putc(text[i], out);
    }
}

static int bit(const void *bits, int64_t at) { return ((const uint8_t *)bits)[at / 8] >> (at % 8) & 1; }

static int is_there(const struct ArrowArray *a, int64_t i) { return !a->buffers[0] || bit(a->buffers[0], a->offset + i); }

static int write_value(FILE *out, const struct ArrowSchema *s, const struct ArrowArray *a, int64_t i) {
    if (!is_there(a, i)) return putc('%', out), 0;
    int64_t at = a->offset + i;
    if (s->dictionary) {
        int64_t index = !strcmp(s->format, "i") ? ((const int32_t *)a->buffers[1])[at] : ((const uint8_t *)a->buffers[1])[at];
        WANTED(0 <= index && index < a->dictionary->length);
        return write_value(out, s->dictionary, a->dictionary, index);
    }
    if (!strcmp(s->format, "l") || !strcmp(s->format, "tsm:UTC")) return fprintf(out, "%lld", (long long)((const int64_t *)a->buffers[1])[at]), 0;
    if (!strcmp(s->format, "i")) return fprintf(out, "%d", ((const int32_t *)a->buffers[1])[at]), 0;
    if (!strcmp(s->format, "b")) return fprintf(out, "%d", bit(a->buffers[1], at)), 0;
    const int64_t *offsets = (const int64_t *)a->buffers[1] + at;
    WANTED(0 <= offsets[0] && offsets[0] <= offsets[1]);
    if (!strcmp(s->format, "U")) return escaped(out, (const uint8_t *)a->buffers[2] + offsets[0], offsets[1] - offsets[0]), 0;
    WANTED(!strcmp(s->format, "+L") && offsets[1] <= a->children[0]->length);
    putc('(', out);
    for (int64_t k = offsets[0]; k < offsets[1]; k++) {
        if (k > offsets[0]) putc(',', out);
        int wrong = write_value(out, s->children[0], a->children[0], k);
        WANTED(!wrong);
    }
    putc(')', out);
    return 0;
}

/* What the interface says of any array of this schema. */
static int checked(const struct ArrowSchema *s, const struct ArrowArray *a) {
    WANTED(s->release && a->release && s->name && a->offset == 0 && a->length >= 0);
    WANTED(s->n_children == a->n_children && !s->dictionary == !a->dictionary);
    WANTED(a->n_buffers == (!strcmp(s->format, "+s") ? 1 : !strcmp(s->format, "U") ? 3 : 2));
    int64_t nulls = 0;
    for (int64_t i = 0; i < a->length; i++) nulls += !is_there(a, i);
    WANTED(nulls == a->null_count && (nulls == 0 || s->flags & 2));
    for (int64_t k = 0; k < a->n_children; k++) {
        int wrong = checked(s->children[k], a->children[k]);
        WANTED(!wrong);
        WANTED(strcmp(s->format, "+s") || a->children[k]->length == a->length);
    }
    return s->dictionary ? checked(s->dictionary, a->dictionary) : 0;
}

static int write_rows(FILE *out, const struct ArrowSchema *s, const struct ArrowArray *a) {
    WANTED(!strcmp(s->format, "+s"));
    int wrong = checked(s, a);
    if (wrong) return wrong;
    for (int64_t i = 0; i < a->length; i++)
        for (int64_t k = 0; k < a->n_children; k++) {
            wrong = write_value(out, s->children[k], a->children[k], i);
            if (wrong) return wrong;
            putc(k + 1 < a->n_children ? '\t' : '\n', out);
        }
    return 0;
}

static void write_names(FILE *out, const struct ArrowSchema *s) {
    for (int64_t k = 0; k < s->n_children; k++) {
        int32_t has = 0;
        if (s->children[k]->metadata) memcpy(&has, s->children[k]->metadata, 4);
        fprintf(out, "%s:%s%s%c", s->children[k]->name, s->children[k]->format, has ? ":unit" : "", k + 1 < s->n_children ? '\t' : '\n');
    }
}

/* Takes both structs, as a consumer does: what is left there is marked as released. */
static void take(struct ArrowSchema *from_schema, struct ArrowArray *from_array, struct ArrowSchema *schema, struct ArrowArray *array) {
    *schema = *from_schema, *array = *from_array;
    from_schema->release = NULL, from_array->release = NULL;
}

static void *release_both(void *both) {
    struct ArrowSchema *schema = ((void **)both)[0];
    struct ArrowArray *array = ((void **)both)[1];
    array->release(array);
    schema->release(schema);
    return NULL;
}

/* Writes the rows of an array to a file and releases it, in another thread where `elsewhere`. */
int consume_array(struct ArrowSchema *from_schema, struct ArrowArray *from_array, const char *path, int elsewhere) {
    struct ArrowSchema schema;
    struct ArrowArray array;
    take(from_schema, from_array, &schema, &array);
    FILE *out = fopen(path, "w");
    WANTED(out);
    write_names(out, &schema);
    int wrong = write_rows(out, &schema, &array);
    fclose(out);
    void *both[] = {&schema, &array};
    pthread_t thread;
    if (elsewhere && !pthread_create(&thread, NULL, release_both, both)) pthread_join(thread, NULL);
    else release_both(both);
    WANTED(!schema.release && !array.release);
    return wrong;
}

/* Takes the last child of an array out of it, releases the array, and then writes the child's values. */
int consume_child(struct ArrowSchema *from_schema, struct ArrowArray *from_array, const char *path) {
    struct ArrowSchema schema;
    struct ArrowArray array;
    take(from_schema, from_array, &schema, &array);
    struct ArrowSchema part_schema = *schema.children[schema.n_children - 1];
    struct ArrowArray part = *array.children[array.n_children - 1];
    schema.children[schema.n_children - 1]->release = NULL, array.children[array.n_children - 1]->release = NULL;
    release_both((void *[]){&schema, &array});
    FILE *out = fopen(path, "w");
    WANTED(out);
    int wrong = checked(&part_schema, &part);
    for (int64_t i = 0; i < part.length && !wrong; i++) wrong = write_value(out, &part_schema, &part, i), putc('\n', out);
    fclose(out);
    release_both((void *[]){&part_schema, &part});
    return wrong;
}

/* Writes the rows of all batches of a stream to a file, which ends with its error if it has one, and releases it. */
int consume_stream(struct ArrowArrayStream *from, const char *path) {
    struct ArrowArrayStream stream = *from;
    from->release = NULL;
    struct ArrowSchema schema;
    FILE *out = fopen(path, "w");
    WANTED(out && !stream.get_schema(&stream, &schema));
    write_names(out, &schema);
    int wrong = 0, failed = 0;
    while (!wrong) {
        struct ArrowArray array;
        failed = stream.get_next(&stream, &array);
        if (failed || !array.release) break;
        wrong = write_rows(out, &schema, &array);
        array.release(&array);
        WANTED(!array.release);
    }
    if (failed) fprintf(out, "%s\n", stream.get_last_error(&stream));
    fclose(out);
    schema.release(&schema);
    stream.release(&stream);
    WANTED(!schema.release && !stream.release);
    return wrong;
}
