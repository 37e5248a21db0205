/* The least privilege of a front: what it cannot do even where the network has taken it over. */
#ifndef CONFINE_H
#define CONFINE_H

#include <stdbool.h>

/* Nothing of the memory, in which keys may be, gets into a core file or to another process of the same user. */
void confine_memory(void);

/* At the start: it ends with the core; where the core is root, the front becomes a user of its own. */
void confine_user(bool secure);

/* When it listens: no new privileges, no new process, no file, and no system call that it has no need of. */
void confine_process(void);

#endif
