/*
 * Files as bytes: see files.h.
 */
#include "files.h"

#include <assert.h>
#include <stdbool.h>
#include <stdio.h>
#include <stdlib.h>
#include <string.h>

size_t load_file(const char *path, uint8_t *bytes, size_t room)
{
    FILE *file = fopen(path, "rb");

    if (file == NULL) {
        perror(path);
        exit(2);
    }

    size_t length = fread(bytes, 1, room, file);

    if (ferror(file)) {
        perror(path);
        exit(2);
    }
    fclose(file);
    return length;
}

void save_file(const char *path, const void *bytes, size_t length)
{
    FILE *file = fopen(path, "wb");

    if (file == NULL || fwrite(bytes, 1, length, file) != length || fclose(file) != 0) {
        perror(path);
        exit(2);
    }
}

void save_for_map(const char *folder, const char *name, const uint8_t *capture, size_t length, const char *printed)
{
    char path[4096], text[512];
    size_t printed_length = strlen(printed);
    bool has_end = printed_length > 0 && printed[printed_length - 1] == '\n';
    int text_length = snprintf(text, sizeof text, "%s%s", printed, has_end ? "" : "\n");

    assert(text_length < (int)sizeof text);
    snprintf(path, sizeof path, "%s/%s.cap", folder, name);
    save_file(path, capture, length);
    snprintf(path, sizeof path, "%s/%s.txt", folder, name);
    save_file(path, text, (size_t)text_length);
}
