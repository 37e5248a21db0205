/* Whether the header tells an archive of another build: `tillerclover_identity`, the archive's own function elsewhere, is one
 * here that gives any number. Exits with 1 at the first fault. */
#include <stdio.h>

#include "tillerclover.h"

static uint64_t number;

uint64_t tillerclover_identity(void)
{
    return number;
}

static int identified(uint64_t given)
{
    number = given;
    return tillerclover_identified();
}

int main(void)
{
    static const uint64_t others[] = {1, 1000, 1000000, UINT64_C(1) << 32};
    int right = identified(TILLERCLOVER_IDENTITY) == 1 && identified(0) == 0;
    for (size_t i = 0; i < sizeof others / sizeof *others; i++)
        right = right && identified(TILLERCLOVER_IDENTITY + others[i]) == 0 &&
                identified(TILLERCLOVER_IDENTITY - others[i]) == 0;
    if (!right)
        fprintf(
            stderr,
            "identity: an archive of another version, a later or an earlier one, passes, or the right one does not\n");
    return !right;
}
