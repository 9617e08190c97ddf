#include "file.h"

#include <errno.h>
#include <stdio.h>
#include <stdlib.h>
#include <string.h>

enum { MOST = 65536 };

static void end(const char *what, const char *why)
{
    fprintf(stderr, "%s: %s\n", what, why);
    exit(2);
}

void *block(uint64_t size)
{
    void *at = malloc((size_t)size);
    if (at == NULL && size > 0)
        end("memory", "there is none left");
    return at;
}

static FILE *open_file(const char *name)
{
    static int taken = 0;
    FILE *file;
    if (strcmp(name, "-") == 0) {
        if (taken)
            end(name, "standard input can be read only once");
        taken = 1;
        return stdin;
    }
    file = fopen(name, "rb");
    if (file == NULL)
        end(name, strerror(errno));
    return file;
}

struct octets read_file(const char *name)
{
    static uint8_t all[MOST];
    struct octets read;
    FILE *file = open_file(name);
    read.length = fread(all, 1, MOST, file);
    if (ferror(file))
        end(name, strerror(errno));
    if (file != stdin)
        fclose(file);
    read.at = block(read.length);
    if (read.length > 0)
        memcpy(read.at, all, (size_t)read.length);
    return read;
}

void end_output(void)
{
    if (fflush(stdout) != 0 || ferror(stdout))
        end("standard output", strerror(errno));
}
