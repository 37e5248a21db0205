/* The calls of targets/random.h for the page, which asks for their digest; with ALONE for the machine that builds it, as digits.
 */
#ifdef ALONE
#include <stdio.h>
#include <stdlib.h>
#endif

#include "../targets/random.h"

#ifdef ALONE
int main(int many, char **words)
{
    unsigned all = random_calls(many > 1 ? strtoul(words[1], NULL, 10) : 0);
    printf("%08lx%08lx\n", (unsigned long)(digest >> 32), (unsigned long)(digest & UINT32_MAX));
    return all != ALL_ANSWERS;
}
#else
/* The digest, or 0 if an answer was never given. */
__attribute__((export_name("digest"))) uint64_t tillerclover_page_digest(unsigned calls)
{
    return random_calls(calls) == ALL_ANSWERS ? digest : 0;
}
#endif
