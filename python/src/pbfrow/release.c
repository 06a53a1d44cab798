/* What lets go of Arrow structs that Python made, for _arrow.py. A consumer calls it from any thread, and in Python also while an
 * exception is on its way, as for the table in `pyarrow.table(nodes)["typo"]`: a function in Python, called through ctypes,
 * would lose that exception. It needs no headers of Python: it gets the functions that it calls.
 *
 * The private data of each struct is a Python object that keeps alive all that the struct looks at. */
#include <stddef.h>
#include <stdint.h>

/* docs/format/CDataInterface in Arrow */
struct schema {
    const char *format, *name, *metadata;
    int64_t flags, n_children;
    struct schema **children, *dictionary;
    void (*release)(struct schema *);
    void *private_data;
};
struct array {
    int64_t length, null_count, offset, n_buffers, n_children;
    const void **buffers;
    struct array **children, *dictionary;
    void (*release)(struct array *);
    void *private_data;
};
struct stream {
    int (*get_schema)(struct stream *, struct schema *);
    int (*get_next)(struct stream *, struct array *);
    const char *(*get_last_error)(struct stream *);
    void (*release)(struct stream *);
    void *private_data;
};

/* Functions of Python's C interface, in the order in which _arrow.py gives them. */
static struct {
    int (*is_initialized)(void);
    int (*ensure)(void);
    void (*leave)(int);
    void (*fetch)(void **, void **, void **);
    void (*restore)(void *, void *, void *);
    void (*decref)(void *);
    const char *(*capsule_name)(void *);
    void *(*capsule_pointer)(void *, const char *);
    void *(*capsule_context)(void *);
} python;

void pbfrow_python(void **functions) {
    void **at = (void **)&python;
    for (size_t i = 0; i < sizeof python / sizeof *at; i++) at[i] = functions[i];
}

/* Gives back the object. Where the interpreter has ended, nothing is left to give it back to. */
static void let_go(void *kept) {
    void *type, *value, *traceback;
    if (!python.is_initialized()) return;
    int state = python.ensure();
    python.fetch(&type, &value, &traceback);
    python.decref(kept);
    python.restore(type, value, traceback);
    python.leave(state);
}

void pbfrow_release_schema(struct schema *schema) {
    void *kept = schema->private_data;
    for (int64_t i = 0; i < schema->n_children; i++)
        if (schema->children[i]->release) schema->children[i]->release(schema->children[i]);
    if (schema->dictionary && schema->dictionary->release) schema->dictionary->release(schema->dictionary);
    schema->release = NULL;
    let_go(kept);
}

void pbfrow_release_array(struct array *array) {
    void *kept = array->private_data;
    for (int64_t i = 0; i < array->n_children; i++)
        if (array->children[i]->release) array->children[i]->release(array->children[i]);
    if (array->dictionary && array->dictionary->release) array->dictionary->release(array->dictionary);
    array->release = NULL;
    let_go(kept);
}

void pbfrow_release_stream(struct stream *stream) {
    void *kept = stream->private_data;
    stream->release = NULL;
    let_go(kept);
}

/* The destructors of capsules, which Python calls: each releases a struct that nobody took, and gives back its memory, which
 * is the capsule's context. */
#define DROP(type) \
    void pbfrow_drop_##type(void *capsule) { \
        struct type *held = python.capsule_pointer(capsule, python.capsule_name(capsule)); \
        void *memory = python.capsule_context(capsule); \
        if (held->release) held->release(held); \
        let_go(memory); \
    }
DROP(schema)
DROP(array)
DROP(stream)
