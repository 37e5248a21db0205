#include <stdio.h>
#include <string.h>

#include "answer.h"
#include "directory.h"

/* Content formats, by their registered numbers. */
enum {
    TEXT_PLAIN = 0,
    LINK_FORMAT = 40,
    OCTET_STREAM = 42
};

/* The library's answers to a record by their number: CoAP code, seconds until it is worth trying again, and words where the
 * terminal has its own. */
struct meaning {
    unsigned code, max_age;
    const char *words;
};
static const struct meaning MEANINGS[] = {
    [TILLERCLOVER_PERMITTED] = {205, 0, NULL},
    [TILLERCLOVER_NOT_SOUND] = {500, 0, "tables not sound: the terminal must be cleared"},
    [TILLERCLOVER_BAD_LENGTH] = {413, 0, NULL},
    [TILLERCLOVER_NO_VERB] = {405, 0, NULL},
    [TILLERCLOVER_ZERO_BIT_SET] = {400, 0, NULL},
    [TILLERCLOVER_MISMATCH] = {400, 0, NULL},
    [TILLERCLOVER_UNKNOWN_RESOURCE] = {404, 0, NULL},
    [TILLERCLOVER_NO_CREDENTIAL] = {401, 0, NULL},
    [TILLERCLOVER_NOT_PERMITTED] = {403, 0, NULL},
    [TILLERCLOVER_NOT_OFFERED] = {405, 0, NULL},
    [TILLERCLOVER_MALFORMED] = {400, 0, NULL},
    [TILLERCLOVER_WRONG_STATE] = {409, 0, NULL},
    [TILLERCLOVER_BAD_TARGET] = {409, 0, NULL},
    [TILLERCLOVER_MISSING] = {404, 0, NULL},
    [TILLERCLOVER_FULL] = {503, 60, NULL},
    [TILLERCLOVER_NO_ROOM] = {500, 0, NULL},
    [TILLERCLOVER_NO_ENDPOINT] = {403, 0, NULL},
    [TILLERCLOVER_ROLES_FULL] = {503, 60, NULL},
    [TILLERCLOVER_OCCUPIED] = {503, 1, NULL},
    [TILLERCLOVER_NOTHING_WAITING] = {503, 1, "the record was dropped with its row"},
};

static struct meaning meaning_of(unsigned number)
{
    static const struct meaning NO_ANSWER = {500, 0, "not an answer to a record"};
    bool listed = number < sizeof MEANINGS / sizeof *MEANINGS && MEANINGS[number].code != 0;
    struct meaning meaning = listed ? MEANINGS[number] : NO_ANSWER;
    if (meaning.words == NULL) {
        meaning.words = tillerclover_answer_text((enum tillerclover_answer)number);
    }
    return meaning;
}

const char *answer_meaning(unsigned number)
{
    return meaning_of(number).words;
}

struct answer answer_words(unsigned code, const char *words)
{
    struct answer a = {.code = code, .format = ANSWER_DIAGNOSTIC, .length = strlen(words)};
    memcpy(a.bytes, words, a.length);
    return a;
}

struct answer answer_refusal(unsigned number)
{
    struct meaning m = meaning_of(number);
    char words[80];
    snprintf(words, sizeof words, "%u %s", number, m.words);
    struct answer a = answer_words(m.code, words);
    a.max_age = m.max_age;
    return a;
}

static unsigned permitted_code(unsigned verb)
{
    switch (verb) {
    case TILLERCLOVER_CREATE:
        return 201;
    case TILLERCLOVER_UPDATE:
        return 204;
    case TILLERCLOVER_DELETE:
        return 202;
    default:
        return 205;
    }
}

static struct answer permitted(unsigned verb, int format, const void *bytes, size_t length)
{
    struct answer a = {.code = permitted_code(verb), .format = format, .length = length};
    memcpy(a.bytes, bytes, length);
    return a;
}

/* The links of /yard that the sender may use, in the link format. */
static struct answer yard(unsigned verb, uint64_t set)
{
    char links[256] = "";
    size_t length = 0;
    for (size_t i = 0; i < DIRECTORY_LENGTH; i++) {
        if (set & TILLERCLOVER_SET_BIT(DIRECTORY[i].number)) {
            int more = snprintf(links + length, sizeof links - length, "%s<%s>", length ? "," : "", DIRECTORY[i].path);
            length = more > 0 && (size_t)more < sizeof links - length ? length + (size_t)more : length;
        }
    }
    return permitted(verb, LINK_FORMAT, links, length);
}

static struct answer weighed(const struct taken *t, struct plate *plate, uint32_t clock)
{
    char text[PLATE_TEXT];
    const tillerclover_outcome *o = &t->taken.outcome;
    const uint8_t *record = t->taken.record;
    unsigned verb = tillerclover_record_verb(record), resource = tillerclover_record_resource(record);
    switch (plate_act(plate, clock, verb, resource, record + o->payload_offset, o->payload_length, text)) {
    case PLATE_NOT_OFFERED:
        return answer_words(405, "permitted, but the plate does not do this");
    case PLATE_BAD_BODY:
        return answer_words(400, "permitted, but the plate does not understand the body");
    case PLATE_NOT_NOW:
        return answer_words(409, "permitted, but not with a load on the plate");
    default:
        return permitted(verb, TEXT_PLAIN, text, strlen(text));
    }
}

struct answer answer_taken(const struct taken *t, struct plate *plate, uint32_t clock)
{
    const tillerclover_outcome *o = &t->taken.outcome;
    unsigned verb = tillerclover_record_verb(t->taken.record), resource = tillerclover_record_resource(t->taken.record);
    if (o->answer != TILLERCLOVER_PERMITTED) {
        return answer_refusal(o->answer);
    }
    if (resource < TILLERCLOVER_WEIGHT) {
        return permitted(verb, OCTET_STREAM, t->reply, o->reply_length);
    }
    if (resource == TILLERCLOVER_YARD) {
        return yard(verb, o->link_set);
    }
    return weighed(t, plate, clock);
}
