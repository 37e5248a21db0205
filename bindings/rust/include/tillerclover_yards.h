/* Tillerclover: two questions. Are the partners of a yard isolated from everybody else, and does the archive belong to this
 * header? tillerclover.h includes this file. docs/QUESTIONS.md says what 'isolated' guarantees, and how long.
 */
#include "tillerclover.h"

#ifndef TILLERCLOVER_YARDS_H
#define TILLERCLOVER_YARDS_H

#ifdef __cplusplus
extern "C" {
#endif

/* ---- Identity
 *
 * One number: 1,000,000 for each version of the bytes of tables and waiting records, 1,000 for each major version of the
 * functions, 1 for each minor one. A program asks once, when it starts:
 *
 *     if (!tillerclover_identified())
 *         stop("the archive and tillerclover.h do not belong together");
 *
 * An archive without the function does not link.
 */
#define TILLERCLOVER_IDENTITY UINT64_C(1002000)
#if 1002000 != 1000000 * TILLERCLOVER_FORMAT + TILLERCLOVER_INTERFACE
#error "the identity is not that of TILLERCLOVER_FORMAT and TILLERCLOVER_INTERFACE"
#endif

/* The archive's number. */
uint64_t tillerclover_identity(void);

/* 1 where the archive belongs to the header that the caller was compiled with, otherwise 0. */
static inline int tillerclover_identified(void)
{
    return tillerclover_identity() == TILLERCLOVER_IDENTITY;
}

/* ---- Isolation */

enum {
    /* an entry of a list of senders: a credential number, its most significant byte first; 0 is everybody without one */
    TILLERCLOVER_SENDER_LENGTH = 2
};

/* Why the senders of a list may not be isolated. Reasons 1 to 3 are of the whole list, and the first that applies is given.
 * Then the entries are looked at one by one, and the first entry with reason 4 or 5 is given, 4 if it has both. */
enum tillerclover_isolation_reason {
    /* they are isolated */
    TILLERCLOVER_ISOLATED = 0,
    /* the list has an odd number of bytes */
    TILLERCLOVER_ISOLATION_ODD_LENGTH = 1,
    /* the tables are not sound */
    TILLERCLOVER_ISOLATION_NOT_SOUND = 2,
    /* there is no owner, so that anybody may write */
    TILLERCLOVER_ISOLATION_NO_OWNER = 3,
    /* the sender of the entry has an owner's subject */
    TILLERCLOVER_ISOLATION_NAMES_OWNER = 4,
    /* the sender of the entry may be given create, update or delete on a security resource, by the access row */
    TILLERCLOVER_ISOLATION_MAY_ALTER = 5
};

/* The result of asking about a list of senders. */
typedef struct tillerclover_isolation {
    /* enum tillerclover_isolation_reason */
    uint8_t reason;
    /* the entry, counted from 1, with NAMES_OWNER and MAY_ALTER; otherwise 0 */
    size_t entry;
    /* the place of the access row, counted from 1, with MAY_ALTER; otherwise 0 */
    size_t row;
} tillerclover_isolation;

/* The archive's function: the tables as five arrays in the order of their bytes, and the result as reason, entry and row. */
void tillerclover_isolated_at(const uint8_t counts[4], const uint8_t devowner[16], const uint8_t rowners[64],
                              const uint8_t creds[936], const uint8_t aces[1152], const uint8_t *senders,
                              uint64_t length, uint64_t said[3]);

/* Whether the senders of a list are isolated in this terminal. If they are, then whatever they send from now on changes no
 * outcome of a record of anybody else that is judged, and of the tables nothing but their own asserted roles. When a record is
 * taken may differ, and so whether a hand-in gets TILLERCLOVER_OCCUPIED.
 *
 * Any content and any bytes are allowed; waiting records are not looked at. An entry may occur twice, and may name a partner without
 * a credential row. An empty list is isolated where the tables are sound.
 *
 * senders points to at least `length` bytes that nothing changes during the call: TILLERCLOVER_SENDER_LENGTH for each entry.
 *
 * Ask again after each permitted UPDATE of DOXM, PSTAT, CRED or ACL2 by somebody who is on no list that was found isolated, after the
 * clear button, and when the tables come from storage. Nothing else ends isolation.
 */
TILLERCLOVER_RESULT TILLERCLOVER_NONNULL static inline tillerclover_isolation
tillerclover_isolated(const tillerclover_terminal *terminal, const unsigned char *senders, size_t length)
{
    const tillerclover_tables *tables = &terminal->tables;
    uint64_t said[3];
    tillerclover_isolation isolation;
    tillerclover_isolated_at((const uint8_t *)tables, tables->devowner, tables->rowners, tables->creds, tables->aces,
                             senders, length, said);
    isolation.reason = (uint8_t)said[0];
    isolation.entry = (size_t)said[1];
    isolation.row = (size_t)said[2];
    return isolation;
}

#ifdef __cplusplus
}
#endif

#endif
