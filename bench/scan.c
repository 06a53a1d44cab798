/* A plain scan of a PBF file's frames, to compare `pbfrow list` with: it reads all of standard input and writes a line
 * OFFSET TYPE DATASIZE for each frame. It checks what it needs to stay inside its buffer, and nothing more. */
#include <stdint.h>
#include <stdio.h>
#include <stdlib.h>
#include <string.h>

static uint64_t number(const unsigned char **p, const unsigned char *end)
{
    uint64_t n = 0;
    for (int shift = 0; *p < end && shift < 64; shift += 7) {
        unsigned char b = *(*p)++;
        n |= (uint64_t)(b & 127) << shift;
        if (b < 128)
            return n;
    }
    exit(1);
}

int main(void)
{
    size_t room = 1 << 20, len = 0, got;
    unsigned char *bytes = malloc(room);
    while (bytes && (got = fread(bytes + len, 1, room - len, stdin)) > 0)
        if ((len += got) == room)
            bytes = realloc(bytes, room *= 2);
    if (!bytes)
        return 1;
    for (size_t at = 0; at < len;) {
        if (len - at < 4)
            return 1;
        const unsigned char *p = bytes + at + 4;
        size_t header = (size_t)bytes[at] << 24 | bytes[at + 1] << 16 | bytes[at + 2] << 8 | bytes[at + 3];
        if (header > 65535 || len - at - 4 < header)
            return 1;
        const unsigned char *end = p + header, *type = p;
        uint64_t type_len = 0, size = 0;
        while (p < end) {
            uint64_t tag = number(&p, end), n = number(&p, end);
            if ((tag & 7) == 2) {
                if (n > (uint64_t)(end - p))
                    return 1;
                if (tag >> 3 == 1)
                    type = p, type_len = n;
                p += n;
            } else if (tag >> 3 == 3)
                size = n;
        }
        if (size > (uint64_t)(bytes + len - end))
            return 1;
        printf("%zu %.*s %llu\n", at, (int)type_len, (const char *)type, (unsigned long long)size);
        at += 4 + header + size;
    }
    return 0;
}
