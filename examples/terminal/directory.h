/* The terminal's directory: the path of each resource that the library knows. */
#ifndef DIRECTORY_H
#define DIRECTORY_H

#include "tillerclover.h"

struct resource {
    const char *path;
    enum tillerclover_resource number;
};

enum {
    DIRECTORY_LENGTH = 13,
    /* A number that no resource has, for a path that is not in the directory: the library refuses it. */
    DIRECTORY_NONE = 63
};
extern const struct resource DIRECTORY[DIRECTORY_LENGTH];

/* The path of a resource, or "?" where the directory has no such number. */
const char *directory_path(unsigned number);

#endif
