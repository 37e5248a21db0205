/* Calls of the library at random that give the same on every processor: their results make one digest. They need memset, memcpy
 * and nothing else of a C library, so that a page can make them too.
 *
 * What a wrong instruction would change must be seen: so seconds, capacities and lengths lie on edges more often than chance would
 * have it, tables and lists are spoilt by a bit or two, and all bytes of the terminal go into the digest after each call.
 */
#ifndef TILLERCLOVER_TARGETS_RANDOM_H
#define TILLERCLOVER_TARGETS_RANDOM_H

#include "tillerclover_records.h"
#include "tillerclover_store.h"
#include "tillerclover_yards.h"

enum {
    ALL_ANSWERS = TILLERCLOVER_NOTHING_WAITING + 1,
    PARTNERS_AT_RANDOM = 6
};

static tillerclover_terminal x;
static tillerclover_defaults defaults;
static uint8_t reply[TILLERCLOVER_TEXT_MAX];
static uint64_t seed, digest;
static unsigned long seen[ALL_ANSWERS];
/* the credential numbers of the terminal's partners are that many times 1, 2, .., and its owner's is this */
static unsigned times, owner_number;

/* ---- What is drawn. C leaves the order of arguments open, so that no two of one call are drawn at random. */

static unsigned any(unsigned below)
{
    seed ^= seed << 13;
    seed ^= seed >> 7;
    seed ^= seed << 17;
    return (unsigned)(seed >> 32) % below;
}

/* Few seconds, so that a clock is often the first or the last of a season, or beside it. */
static uint32_t any_second(void)
{
    static const uint32_t edges[] = {0, 1, UINT32_MAX - 1, UINT32_MAX};
    return any(8) ? 500 + any(8) : edges[any(4)];
}

static const uint8_t *any_uuid(void)
{
    static uint8_t uuids[4][TILLERCLOVER_UUID_LENGTH];
    static unsigned turn;
    uint8_t *uuid = uuids[turn++ % 4];
    memset(uuid, (int)any(8), TILLERCLOVER_UUID_LENGTH);
    /* one in six differs from its like in a byte alone */
    unsigned at = any(TILLERCLOVER_UUID_LENGTH);
    uuid[at] ^= (uint8_t)(any(6) == 0);
    return uuid;
}

/* Roles and authorities that share a byte. */
static unsigned any_role(void)
{
    static const uint16_t roles[] = {0, 1, 2, 3, 256, 257, 513, 1};
    return roles[any(8)];
}

static unsigned any_authority(void)
{
    static const uint16_t authorities[] = {0, 0, 1, 1, 256, 257};
    return authorities[any(6)];
}

static enum tillerclover_resource any_resource(void)
{
    static const uint8_t numbers[] = {0, 1, 2, 3, 4, 8, 9, 10, 11, 12, 13, 14, 16, 16, 5, 15};
    return (enum tillerclover_resource)numbers[any(sizeof numbers)];
}

static tillerclover_ace any_ace(void)
{
    tillerclover_ace row;
    memset(&row, 0, sizeof row);
    row.number = any(40);
    row.kind = (enum tillerclover_subject)any(3);
    row.uuid = any_uuid();
    row.role = any_role();
    row.authority = any_authority();
    row.connection = (enum tillerclover_connection)any(2);
    row.permission = any(32);
    row.wildcards = any(3) ? 0 : any(8);
    enum tillerclover_resource one = any_resource();
    enum tillerclover_resource other = any_resource();
    row.set = TILLERCLOVER_SET_BIT(one) | TILLERCLOVER_SET_BIT(any(3) ? other : TILLERCLOVER_TARE);
    row.set = any(12) ? row.set : 0;
    row.first = any(3) ? 0 : any_second();
    row.last = any(3) ? UINT32_MAX : any_second();
    return row;
}

/* One that a record could store. */
static tillerclover_ace storable_ace(unsigned number)
{
    uint8_t body[TILLERCLOVER_ACE_LENGTH];
    tillerclover_ace row;
    do {
        row = any_ace();
        row.number = number;
        tillerclover_pack_ace(body, &row);
    } while (tillerclover_test_list(body, sizeof body).answer == TILLERCLOVER_TEST_NOT_STORABLE);
    return row;
}

static tillerclover_cred any_cred(void)
{
    tillerclover_cred row;
    row.number = any(30);
    row.subject = any_uuid();
    row.role = any_role();
    row.authority = row.role ? any_authority() : any(20) == 0;
    row.type = any(4) ? 1 : any(64);
    return row;
}

static tillerclover_record any_request(void)
{
    unsigned sender = any(4) ? (1 + any(8)) * times : 0;
    sender = any(3) ? sender : owner_number;
    tillerclover_cred cred = any_cred();
    tillerclover_ace ace = any_ace();
    tillerclover_role role = {0, 0, 0};
    enum tillerclover_resource table = any(2) ? TILLERCLOVER_CRED : TILLERCLOVER_ACL2;
    enum tillerclover_resource resource = any_resource();
    const uint8_t *uuid = any_uuid();
    role.role = any_role();
    role.authority = any_authority();
    role.last = any_second();
    switch (any(13)) {
    case 0:
        return tillerclover_set_owner(sender, uuid);
    case 1:
        return tillerclover_set_row_owner((enum tillerclover_resource)any(5), sender, uuid);
    case 2:
        return tillerclover_set_state(sender, (enum tillerclover_state)(any(8) ? 2 + any(2) : any(6)));
    case 3:
        return tillerclover_store_cred(sender, &cred);
    case 4:
        return tillerclover_store_ace(sender, &ace);
    case 5:
    case 6:
        return tillerclover_assert_role(sender, &role);
    case 7:
        return any(3) ? tillerclover_delete_row(table, sender, any(40)) : tillerclover_delete_subject(sender, uuid);
    case 8:
        return tillerclover_request_text(TILLERCLOVER_UPDATE, resource, sender, "7420 kg");
    case 9:
        return tillerclover_request_text((enum tillerclover_verb)any(6), resource, sender, "x");
    default:
        return tillerclover_request_bare((enum tillerclover_verb)(any(2) ? 1 : any(6)), resource, sender);
    }
}

/* One in four has a bit turned, or another length. */
static tillerclover_record any_record(void)
{
    tillerclover_record r = any_request();
    unsigned spoil = any(16);
    if (spoil < 2) {
        unsigned bit = any(8 * (unsigned)(spoil ? r.length : 4));
        r.bytes[bit / 8] ^= (uint8_t)(1u << bit % 8);
    } else if (spoil == 2) {
        r.length = any(2) ? any(42) : TILLERCLOVER_RECORD_MAX + any(2);
    } else if (spoil == 3 && r.length > 4) {
        r.length -= 1 + any(2);
    }
    return r;
}

/* ---- The digest */

static void add(uint64_t value)
{
    digest = (digest ^ value) * UINT64_C(0x100000001B3);
    digest ^= digest >> 29;
}

/* Eight bytes at a time, the first one lowest. */
static void add_bytes(const uint8_t *from, size_t many)
{
    for (size_t i = 0; i < many; i += 8) {
        uint64_t value = 0;
        for (size_t j = 0; j < 8 && i + j < many; j++) {
            value |= (uint64_t)from[i + j] << 8 * j;
        }
        add(value);
    }
}

static void add_answer(enum tillerclover_answer answer)
{
    seen[answer]++;
    add(answer);
}

static void add_outcome(const tillerclover_outcome *o)
{
    add_answer(o->answer);
    add(o->permission);
    add(o->payload_offset);
    add(o->payload_length);
    add(o->reply_length);
    add(o->store_table);
    add(o->store_first);
    add(o->store_count);
    add(o->link_set);
    add(o->link_count);
    add_bytes(reply, o->reply_length);
}

/* ---- The calls */

/* The office's text, into a buffer that is just as long, or one too short. */
static void any_text(void)
{
    tillerclover_listed l = tillerclover_access_list(&x, reply, any(4) ? sizeof reply : any(500));
    add_answer(l.answer);
    add_bytes(reply, l.length);
    if (l.length > 0) {
        l = tillerclover_access_list(&x, reply, l.length - any(2));
        add_answer(l.answer);
        add_bytes(reply, l.length);
    }
}

/* A terminal in service, or being set up, with some partners and rows, so that there is something to do; one in three with rows that
 * the build has from the start. */
static void set_up(void)
{
    uint8_t owner[TILLERCLOVER_UUID_LENGTH];
    static tillerclover_record records[TILLERCLOVER_CRED_CAPACITY + TILLERCLOVER_ACE_CAPACITY + 3];
    static uint8_t creds[3 * TILLERCLOVER_CRED_LENGTH], aces[3 * TILLERCLOVER_ACE_LENGTH];
    unsigned many = 0;
    memset(&defaults, 0, sizeof defaults);
    if (any(3) == 0) {
        for (unsigned i = 0; i < 3; i++) {
            tillerclover_cred cred = any_cred();
            cred.number = 20 + i;
            tillerclover_ace ace = storable_ace(35 + i);
            tillerclover_pack_cred(creds + i * TILLERCLOVER_CRED_LENGTH, &cred);
            tillerclover_pack_ace(aces + i * TILLERCLOVER_ACE_LENGTH, &ace);
        }
        defaults.creds = creds;
        defaults.aces = aces;
        defaults.creds_length = any(4) ? any(4) * (unsigned)TILLERCLOVER_CRED_LENGTH : any(sizeof creds);
        defaults.aces_length = any(4) ? any(4) * (unsigned)TILLERCLOVER_ACE_LENGTH : any(sizeof aces);
    }
    tillerclover_fresh(&x, &defaults);
    add_bytes((const uint8_t *)&x, sizeof x);
    /* one in eight has numbers whose bytes are those of the UUID */
    unsigned partners = any(3) ? PARTNERS_AT_RANDOM : any(2) ? TILLERCLOVER_CRED_CAPACITY : 1 + any(PARTNERS_AT_RANDOM);
    unsigned first = 1 + any(partners);
    times = any(8) ? 1 : 257;
    owner_number = first * times;
    memset(owner, (int)first, sizeof owner);
    for (unsigned i = 1; i <= partners; i++) {
        uint8_t uuid[TILLERCLOVER_UUID_LENGTH];
        memset(uuid, (int)i, sizeof uuid);
        tillerclover_cred cred = {i * times, uuid, i % 3, 0, 1};
        records[many++] = tillerclover_store_cred(0, &cred);
    }
    unsigned always = any(2), rows = any(3);
    for (unsigned i = rows == 0 ? any(3) : rows == 1 ? any(30) : TILLERCLOVER_ACE_CAPACITY; i > 0; i--) {
        tillerclover_ace ace = storable_ace(i);
        ace.first = always ? 0 : ace.first;
        ace.last = always ? UINT32_MAX : ace.last;
        records[many++] = tillerclover_store_ace(0, &ace);
    }
    records[many++] = tillerclover_set_owner(0, owner);
    records[many++] = tillerclover_set_state(owner_number, TILLERCLOVER_RFPRO);
    if (any(3)) {
        records[many++] = tillerclover_set_state(owner_number, TILLERCLOVER_RFNOP);
    }
    for (unsigned i = 0; i < many; i++) {
        tillerclover_outcome o =
            tillerclover_judge(&x, &defaults, 0, records[i].bytes, records[i].length, reply, sizeof reply);
        add_outcome(&o);
    }
    any_text();
}

/* Lists of a few rows, one in three with a bit turned: tested, and converted. */
static void any_lists(void)
{
    static uint8_t rows[40 * TILLERCLOVER_ACE_LENGTH];
    unsigned many = any(any(4) ? 4 : 36);
    for (unsigned i = 0; i < many; i++) {
        tillerclover_ace ace = any(4) ? storable_ace(i + 1) : any_ace();
        ace.number += any(8) ? 0 : any(3);
        tillerclover_pack_ace(rows + i * TILLERCLOVER_ACE_LENGTH, &ace);
    }
    unsigned bit = any(8 * 4 * TILLERCLOVER_ACE_LENGTH);
    rows[bit / 8] ^= (uint8_t)((any(3) == 0) << bit % 8);
    tillerclover_tested t = tillerclover_test_list(rows, many * TILLERCLOVER_ACE_LENGTH + (any(10) == 0));
    add_answer(t.answer);
    add(t.row);
    for (unsigned i = 0; i < many; i++) {
        enum tillerclover_resource resource = any(40) ? TILLERCLOVER_TARE : any_resource();
        tillerclover_old_row old = {any_uuid(), 0, TILLERCLOVER_SET_BIT(resource)};
        old.permission = any(32);
        tillerclover_pack_old_row(rows + i * TILLERCLOVER_OLD_ROW_LENGTH, &old);
    }
    bit = any(8 * 4 * TILLERCLOVER_OLD_ROW_LENGTH);
    rows[bit / 8] ^= (uint8_t)((any(3) == 0) << bit % 8);
    size_t whole = many * TILLERCLOVER_OLD_ROW_LENGTH + (any(10) == 0);
    size_t edge = many * TILLERCLOVER_ACE_LENGTH + any(3) - 1;
    tillerclover_converted c = tillerclover_convert_list(rows, whole, reply,
                                                         any(2) || edge > sizeof reply ? sizeof reply
                                                         : any(2)                      ? edge
                                                                                       : any(200));
    add_answer(c.answer);
    add_bytes(reply, c.length);
}

/* The next write of a store, and its current image. */
static void any_store(void)
{
    static uint8_t store[TILLERCLOVER_STORE_LENGTH(40)], image[40];
    uint64_t place = 0;
    uint8_t byte = 0;
    unsigned other = any(9) == 0, from = any(60), in_store = any(sizeof store), in_image = any(sizeof image);
    store[in_store] = (uint8_t)any(256);
    image[in_image] = (uint8_t)any(4);
    add(tillerclover_store_next(store, sizeof store - other, image, sizeof image, from, &place, &byte));
    add(place);
    add(byte);
    store[place] = byte;
    add(tillerclover_store_current(store, sizeof store, sizeof image, &place));
    add(place);
}

/* Whether up to four senders are isolated. */
static void any_isolation(void)
{
    uint8_t senders[4 * TILLERCLOVER_SENDER_LENGTH + 1];
    unsigned many = any(5);
    for (unsigned i = 0; i < sizeof senders; i++) {
        senders[i] =
            (uint8_t)(i % TILLERCLOVER_SENDER_LENGTH == TILLERCLOVER_SENDER_LENGTH - 1 ? any(9) : any(40) == 0);
    }
    tillerclover_isolation i = tillerclover_isolated(&x, senders, many * TILLERCLOVER_SENDER_LENGTH + (any(12) == 0));
    add(i.reason);
    add(i.entry);
    add(i.row);
}

/* A record at once. What gets a reply is asked again, for a buffer that is just as long, or one too short. */
static void any_judgement(size_t capacity)
{
    tillerclover_record r = any_record();
    uint32_t clock = any_second();
    tillerclover_outcome o = tillerclover_judge(&x, &defaults, clock, r.bytes, r.length, reply, capacity);
    add_outcome(&o);
    if (o.reply_length > 0) {
        o = tillerclover_judge(&x, &defaults, clock, r.bytes, r.length, reply, o.reply_length - any(2));
        add_outcome(&o);
    }
}

static void any_call(void)
{
    size_t capacity = any(2) ? sizeof reply : any(60);
    switch (any(18)) {
    case 0:
        any_lists();
        break;
    case 1:
        any_store();
        break;
    case 2:
        any_text();
        break;
    case 3:
    case 4:
    case 5: {
        tillerclover_record r = any_record();
        tillerclover_outcome o = tillerclover_hand_in(&x, r.bytes, r.length);
        add_outcome(&o);
        break;
    }
    case 6:
    case 7:
    case 8: {
        tillerclover_taken t = tillerclover_take(&x, &defaults, any_second(), reply, capacity);
        add_outcome(&t.outcome);
        add_bytes(t.record, t.record_length);
        break;
    }
    case 9:
        any_isolation();
        break;
    case 10:
        if (any(60) == 0) {
            tillerclover_clear(&x, &defaults);
        }
        break;
    default:
        any_judgement(capacity);
    }
}

/* A bit of the terminal: of its head, its rows that are in use, or the queue. */
static uint8_t *any_place(void)
{
    switch (any(4)) {
    case 0:
        return (uint8_t *)&x + any(84);
    case 1:
        return x.tables.creds + any(8 * TILLERCLOVER_CRED_ROW_LENGTH);
    case 2:
        return x.tables.aces + any(sizeof x.tables.aces);
    default:
        return any(2) ? x.waiting.bytes + any(sizeof x.waiting) : x.waiting.bytes + any(4 * 264);
    }
}

/* ---- One after the other, where chance would be slow */

/* Every byte of the terminal, changed alone: is the terminal sound then? */
static void each_byte(void)
{
    uint8_t *byte = (uint8_t *)&x;
    for (size_t i = 0; i < sizeof x; i++) {
        uint8_t change = (uint8_t)(any(2) ? 1u << any(8) : 1 + any(255));
        byte[i] ^= change;
        add(tillerclover_is_sound(&x));
        byte[i] ^= change;
    }
}

/* First halves of a header, one in eight of all, by some sender, without a body: judged on a terminal that is then put back. */
static void each_header(void)
{
    static tillerclover_terminal before;
    for (unsigned half = any(16); half < 1u << 16; half += 1 + any(15)) {
        unsigned sender = any(3) ? 1 + any(PARTNERS_AT_RANDOM) : any(2) ? 0 : any(40);
        uint8_t record[4] = {(uint8_t)(half >> 8), (uint8_t)half, (uint8_t)(any(30) == 0), (uint8_t)sender};
        before = x;
        tillerclover_outcome o =
            tillerclover_judge(&x, &defaults, any_second(), record, sizeof record, reply, sizeof reply);
        add_outcome(&o);
        if (o.answer == TILLERCLOVER_PERMITTED) {
            add_bytes((const uint8_t *)&x, sizeof x);
            x = before;
        }
    }
}

/* Every seat waits, with records of all lengths and no byte of zeros, as far as the terminal keeps them. */
static void fill_queue(void)
{
    for (unsigned i = 0; i < 4 * TILLERCLOVER_CRED_CAPACITY; i++) {
        tillerclover_record r = any_request();
        size_t whole = any(3) ? TILLERCLOVER_RECORD_MAX : 4 + any(TILLERCLOVER_RECORD_MAX - 3);
        for (size_t at = r.length; at < whole; at++) {
            r.bytes[at] = (uint8_t)(1 + any(255));
        }
        r.length = whole > r.length ? whole : r.length;
        tillerclover_outcome o = tillerclover_hand_in(&x, r.bytes, r.length);
        add_outcome(&o);
    }
}

static void drain_queue(void)
{
    for (unsigned i = 0; i <= TILLERCLOVER_CRED_CAPACITY; i++) {
        tillerclover_taken t = tillerclover_take(&x, &defaults, any_second(), reply, sizeof reply);
        add_outcome(&t.outcome);
        add_bytes(t.record, t.record_length);
    }
}

/* Every slot with the sender of every other: is the terminal sound then? */
static void each_seat(void)
{
    uint8_t *slots = x.waiting.bytes + TILLERCLOVER_WAITING_SLOTS_AT;
    for (unsigned one = 0; one <= TILLERCLOVER_CRED_CAPACITY; one++) {
        for (unsigned other = 0; other <= TILLERCLOVER_CRED_CAPACITY; other++) {
            uint8_t *to = slots + one * TILLERCLOVER_SLOT_LENGTH, *from = slots + other * TILLERCLOVER_SLOT_LENGTH,
                    was[2];
            memcpy(was, to, sizeof was);
            memmove(to, from, sizeof was);
            add(tillerclover_is_sound(&x));
            memcpy(to, was, sizeof was);
        }
    }
}

/* Where the stack is: a call that leaves it lower than it was is seen. */
__attribute__((noinline)) static uintptr_t stack(void)
{
    return (uintptr_t)__builtin_frame_address(0);
}

/* That many calls. One in four finds a bit or two of the terminal turned, which are then turned back. Gives ALL_ANSWERS, or the first
 * answer that was never given. */
static unsigned random_calls(unsigned long calls)
{
    seed = 0x9E3779B97F4A7C15;
    digest = 0;
    memset(seen, 0, sizeof seen);
    uintptr_t before = stack();
    for (unsigned long i = 0; i < calls; i++) {
        if (i % 250 == 0) {
            set_up();
        }
        if (i == 0) {
            static tillerclover_terminal now;
            now = x;
            tillerclover_fresh(&x, NULL);
            each_byte();
            x = now;
        }
        if (i == 200) {
            fill_queue();
            each_byte();
            each_seat();
            each_header();
            drain_queue();
        }
        if (any(4) == 0) {
            uint8_t *one = any_place(), *other = any_place();
            uint8_t bit = (uint8_t)(1u << any(8)), second = (uint8_t)((any(3) == 0) << any(8));
            *one ^= bit;
            *other ^= second;
            bool sound = tillerclover_is_sound(&x);
            add(sound);
            if (!sound) {
                any_call();
            }
            *other ^= second;
            *one ^= bit;
        } else {
            any_call();
        }
        add_bytes((const uint8_t *)&x, sizeof x);
    }
    add(stack() == before);
    for (unsigned i = 0; i < ALL_ANSWERS; i++) {
        if (seen[i] == 0) {
            return i;
        }
    }
    return ALL_ANSWERS;
}

#endif
