/* A program outside the repository, built against what was installed: a new terminal, a record that it refuses, a store. */
#include <stdio.h>
#include <tillerclover_records.h>
#include <tillerclover_store.h>

int main(void)
{
    static tillerclover_terminal terminal;
    static const uint8_t record[] = {0x22, 0x00, 0x00, 0x00};
    static const uint8_t store[2 * 2 + 8];
    uint64_t place = 1;
    tillerclover_fresh(&terminal, NULL);
    tillerclover_outcome outcome = tillerclover_judge(&terminal, NULL, 0, record, sizeof record, NULL, 0);
    uint64_t current = tillerclover_store_current(store, sizeof store, 2, &place);
    printf("interface %u, format %u, state %u, answer %u, %s\n", TILLERCLOVER_INTERFACE, TILLERCLOVER_FORMAT,
           terminal.tables.state, (unsigned)outcome.answer, tillerclover_answer_text(outcome.answer));
    return outcome.answer != TILLERCLOVER_NOT_PERMITTED || current != TILLERCLOVER_STORE_DONE || place != 0;
}
