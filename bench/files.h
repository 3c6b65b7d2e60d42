/*
 * Files as bytes.
 */
#ifndef FILES_H
#define FILES_H

#include <stddef.h>
#include <stdint.h>

/* Reads a file, or as much of it as there is room for; gives its length. A file that cannot be read ends the program. */
size_t load_file(const char *path, uint8_t *bytes, size_t room);

/* Writes a file. One that cannot be written ends the program. */
void save_file(const char *path, const void *bytes, size_t length);

/*
 * Writes a capture for ./map to read, NAME.cap, and what it must print, NAME.txt: named as in the folder boards/. The newline
 * at the text's end may be left out.
 */
void save_for_map(const char *folder, const char *name, const uint8_t *capture, size_t length, const char *printed);

#endif
