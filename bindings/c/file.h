/* Octets that are read from a file. */
#ifndef FILE_H
#define FILE_H

#include <stdint.h>

struct octets {
    uint8_t *at; /* a block of exactly `length` octets; free() releases it */
    uint64_t length;
};

/* The octets of a file or pipe, and of standard input for "-", at most 65,536 of them: every input that is longer is refused. The program ends with
 * a message that names the file, and status 2, where they can't be read. */
struct octets read_file(const char *name);

/* A block of so many octets. The program ends with a message and status 2 where there is no memory. */
void *block(uint64_t size);

/* Writes what has been printed. The program ends with a message and status 2 where it can't be written. */
void end_output(void);

#endif
