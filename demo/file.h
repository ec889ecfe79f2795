/* Reading a file whole. */
#ifndef FILE_H
#define FILE_H

#include <stdint.h>
#include <stdio.h>
#include <stdlib.h>

/* All bytes of a file; exits where memory or reading fails. */
static uint8_t *read_all(const char *path, size_t *length)
{
    FILE *stream = fopen(path, "rb");
    size_t room = 1 << 16;
    uint8_t *bytes = stream == NULL ? NULL : malloc(room);

    *length = 0;
    while (bytes != NULL) {
        *length += fread(bytes + *length, 1, room - *length, stream);
        if (*length < room)
            break;
        room *= 2;
        bytes = realloc(bytes, room);
    }
    if (bytes == NULL || ferror(stream)) {
        fprintf(stderr, "cannot read %s\n", path);
        exit(1);
    }
    fclose(stream);
    return bytes;
}

#endif
