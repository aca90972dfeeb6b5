/* The spelling under faults: orders and room of exact lengths, damaged orders, bytes that are none. Its answers are held
   to documents 01 and 02 by a reader and a writer of their own. */
#include "calls.h"
#include <stdio.h>
#include <stdlib.h>
#include <string.h>

struct bytes {
    uint8_t *at;
    size_t length;
};

/* Exactly so many bytes; of none, no memory at all. */
static struct bytes lend_bytes(size_t length)
{
    struct bytes b = {NULL, length};
    if (length > 0 && (b.at = malloc(length)) == NULL)
        exit(2);
    return b;
}

/* The bytes before one place and those from another on: some are left out, or stand twice. */
static struct bytes spliced(struct bytes b, size_t to, size_t from)
{
    struct bytes s = lend_bytes(to + b.length - from);
    if (to > 0)
        memcpy(s.at, b.at, to);
    if (from < b.length)
        memcpy(s.at + to, b.at + from, b.length - from);
    return s;
}

static struct bytes copy_bytes(struct bytes b)
{
    return spliced(b, b.length, b.length);
}

static int equal(struct bytes a, struct bytes b)
{
    return a.length == b.length && (a.length == 0 || memcmp(a.at, b.at, a.length) == 0);
}

/* Command bytes, and others now and then. */
static void fill_bytes(struct bytes b)
{
    for (size_t i = 0; i < b.length; i++)
        b.at[i] = (uint8_t)below(below(4) == 0 ? 256 : 11);
}

/* ---- 01, read again */

/* What the reader answers: a fault's number and position, or 0; and where each command stands that came. */
struct reading {
    uint32_t fault;
    size_t position, from[10];
    int came[10];
};

static size_t operand(uint8_t command)
{
    static const size_t sizes[] = {0, 8, 1, 8, 8, 1, 1, 0, 4, 0};
    return command < 10 ? sizes[command] : 0;
}

static int all_settings(const int *came)
{
    return came[1] && came[2] && came[3] && came[4] && came[5] && came[6];
}

/* "unknown byte, 1, switch, 3, 4" */
static uint32_t fault_at(struct bytes s, size_t at, const int *came)
{
    uint8_t command = s.at[at];
    if (command < 1 || command > 9)
        return COLLAPSE_REFUSED_COMMAND;
    if (s.length - at - 1 < operand(command))
        return COLLAPSE_REFUSED_CUT;
    if (command == 6 && s.at[at + 1] > 1)
        return COLLAPSE_REFUSED_COMMAND;
    if (command < 8 ? came[command] || came[7] : command == 8 && !came[7])
        return COLLAPSE_REFUSED_SEQUENCE;
    return (command == 7 && !all_settings(came)) || (command == 9 && !came[7]) ? COLLAPSE_REFUSED_MISSING : 0;
}

static struct reading read_again(struct bytes s)
{
    struct reading r = {0, 0, {0}, {0}};
    while (r.position < s.length && !r.came[9]) {
        uint8_t command = s.at[r.position];
        if ((r.fault = fault_at(s, r.position, r.came)) != 0)
            return r;
        r.came[command] = 1;
        r.from[command] = r.position;
        r.position += 1 + operand(command);
    }
    if (!r.came[9])
        r.fault = COLLAPSE_REFUSED_CUT;
    else if (r.position < s.length)
        r.fault = COLLAPSE_REFUSED_SEQUENCE;
    return r;
}

/* ---- 02, written again: the settings as 01 to 06, and what stands from 07 on */

static void write_again(struct bytes s, struct reading r, struct bytes out)
{
    size_t at = 0;
    for (uint8_t command = 1; command <= 6; command++) {
        memcpy(out.at + at, s.at + r.from[command], 1 + operand(command));
        at += 1 + operand(command);
    }
    memcpy(out.at + at, s.at + r.from[7], s.length - r.from[7]);
}

/* The answer for so much room. */
static uint32_t number_of(struct bytes s, struct reading r, size_t room)
{
    if (r.fault != 0)
        return r.fault;
    return room < s.length ? COLLAPSE_REFUSED_ROOM : COLLAPSE_SPELLED;
}

/* ---- a call, and what it must have left */

static void object_to(const char *what, struct bytes s, struct bytes out, uint32_t answer, size_t position)
{
    printf("%s: answer %u, position %zu, room %zu, order", what, (unsigned)answer, position, out.length);
    for (size_t i = 0; i < s.length; i++)
        printf(" %02X", (unsigned)s.at[i]);
    printf("\n");
    exit(1);
}

/* With no bytes the pointer is any. */
static uint8_t *pointer(struct bytes b)
{
    return b.length > 0 ? b.at : (uint8_t *)(uintptr_t)below(100);
}

static uint32_t spell(struct bytes s, struct bytes out, size_t *position)
{
    uint32_t answer = collapse_spell(pointer(s), s.length, pointer(out), out.length, position);
    count(answer);
    return answer;
}

static void checked_spell(struct bytes s, size_t room)
{
    struct bytes out = lend_bytes(room), before = copy_bytes(s);
    size_t *position = malloc(sizeof *position), place = below(1000);
    if (position == NULL)
        exit(2);
    fill_bytes(out);
    struct bytes left = copy_bytes(out);
    struct reading r = read_again(s);
    uint32_t number = number_of(s, r, room);
    if (number == COLLAPSE_SPELLED)
        write_again(s, r, left);
    *position = place;
    uint32_t answer = spell(s, out, position);
    if (answer != number)
        object_to("spell answers", before, out, answer, *position);
    if (*position != (r.fault != 0 ? r.position : place))
        object_to("spell's position", before, out, answer, *position);
    if (!equal(out, left))
        object_to("spell's bytes", before, out, answer, *position);
    if (!equal(s, before))
        object_to("spell writes to its order", before, out, answer, *position);
    free(left.at);
    free(before.at);
    free(position);
    free(out.at);
}

/* ---- the cases */

/* 01 to 06 in any sequence. */
static void shuffle(uint8_t *settings)
{
    for (size_t i = 6; i > 1; i--) {
        size_t k = below(i);
        uint8_t last = settings[i - 1];
        settings[i - 1] = settings[k];
        settings[k] = last;
    }
}

static size_t put_settings(struct bytes s)
{
    uint8_t settings[] = {1, 2, 3, 4, 5, 6};
    size_t at = 0;
    shuffle(settings);
    for (size_t i = 0; i < 6; i++) {
        s.at[at] = settings[i];
        if (settings[i] == 6)
            s.at[at + 1] = (uint8_t)below(2);
        at += 1 + operand(settings[i]);
    }
    return at;
}

/* An order that is accepted, with so many advances. */
static struct bytes order_of(size_t advances)
{
    struct bytes s = lend_bytes(35 + 5 * advances);
    fill_bytes(s);
    size_t at = put_settings(s);
    s.at[at++] = 7;
    for (size_t i = 0; i < advances; i++)
        s.at[at + 5 * i] = 8;
    s.at[s.length - 1] = 9;
    return s;
}

/* As long as the order, one byte short, none at all, or longer. */
static size_t any_room(struct bytes s)
{
    size_t rooms[] = {s.length, s.length > 0 ? s.length - 1 : 0, 0, s.length + 1 + below(8)};
    return rooms[below(4)];
}

/* A place in an order, one half of them where a command stands. */
static size_t any_place(struct bytes s)
{
    size_t at = 0;
    if (below(2) == 0)
        return below(s.length + 1);
    for (size_t commands = below(10); commands > 0 && at < s.length; commands--)
        at += 1 + operand(s.at[at]);
    return at < s.length ? at : s.length;
}

/* Every front of an order. */
static void spell_fronts(size_t advances)
{
    struct bytes s = order_of(advances);
    for (size_t length = 0; length <= s.length; length++) {
        struct bytes front = spliced(s, length, s.length);
        checked_spell(front, any_room(front));
        free(front.at);
    }
    free(s.at);
}

/* Room of every length, from none to more than enough. */
static void spell_rooms(size_t advances)
{
    struct bytes s = order_of(advances);
    for (size_t room = 0; room <= s.length + 3; room++)
        checked_spell(s, room);
    free(s.at);
}

/* Room and a position that nobody wrote to: the whole room is written, and a spelling is spelled as itself. */
static void spell_unwritten(size_t advances)
{
    struct bytes s = order_of(advances), out = lend_bytes(s.length), again = lend_bytes(s.length);
    struct bytes left = lend_bytes(s.length);
    size_t *position = malloc(sizeof *position);
    if (position == NULL)
        exit(2);
    write_again(s, read_again(s), left);
    if (spell(s, out, position) != COLLAPSE_SPELLED || !equal(out, left))
        object_to("spell into unwritten room", s, out, 0, 0);
    if (spell(out, again, position) != COLLAPSE_SPELLED || !equal(again, left))
        object_to("spell of a spelling", s, out, 0, 0);
    free(position);
    free(left.at);
    free(again.at);
    free(out.at);
    free(s.at);
}

/* An order with bytes left out, doubled or changed. */
static void one_damaged(size_t advances)
{
    struct bytes s = order_of(advances);
    struct bytes damaged = spliced(s, any_place(s), any_place(s));
    if (damaged.length > 0 && below(2) == 0)
        damaged.at[below(damaged.length)] = (uint8_t)below(256);
    checked_spell(damaged, any_room(damaged));
    free(damaged.at);
    free(s.at);
}

static void one_random(size_t length)
{
    struct bytes s = lend_bytes(length);
    fill_bytes(s);
    checked_spell(s, any_room(s));
    free(s.at);
}

/* The last order is longer than those that the program takes. */
void spell_lengths(void)
{
    for (size_t advances = 0; advances < 4; advances++) {
        spell_fronts(advances);
        spell_rooms(advances);
        spell_unwritten(advances);
    }
    spell_unwritten(1000);
}

void spell_damaged(size_t rounds)
{
    for (size_t i = 0; i < rounds; i++) {
        one_damaged(i % 4);
        one_random(i % 16);
    }
}
