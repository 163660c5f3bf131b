/* The calls in place. */
#include "post.h"

#include <string.h>

static const uint32_t last_counter = UINT32_MAX;

static uint64_t stamp(uint32_t counter, uint8_t sender)
{
    return (uint64_t)counter << 8 | sender;
}

static bool is_counted(uint8_t kind)
{
    return kind == TAKE || kind == RETURN;
}

static bool in_range(uint8_t posts, uint8_t own, uint8_t places)
{
    return posts >= 1 && posts <= POSTS && own < posts && places >= 1 && places <= 16;
}

/* The least stamp over the other posts; above every stamp where there is none. */
static uint64_t floor_of(const struct post *p)
{
    uint64_t least = UINT64_MAX;
    for (uint8_t q = 0; q < p->posts; q++) {
        if (q != p->own && stamp(p->last[q], q) < least)
            least = stamp(p->last[q], q);
    }
    return least;
}

static bool lasts_fit(const struct post *p)
{
    for (uint8_t q = 0; q < POSTS; q++) {
        if (q >= p->posts && p->last[q] != 0)
            return false;
        if (p->last[q] > p->clock)
            return false;
    }
    return true;
}

/* The own messages that wait fit the phase: how many takes and returns, and the kind of the last. */
static bool own_fits(uint8_t phase, uint8_t takes, uint8_t returns, uint8_t end)
{
    switch (phase) {
    case 0:
        return takes == 0 && returns <= 1;
    case 1:
        return takes == 1 && returns <= 1 && end == TAKE;
    default:
        return takes == 0 && returns == 0;
    }
}

/* The rules on the slots; counts gets how many wait of each sender. */
static bool slots_fit(const struct post *p, uint8_t counts[POSTS])
{
    uint64_t top = floor_of(p);
    uint8_t takes = 0, returns = 0, end = 0;

    memset(counts, 0, POSTS);
    for (uint8_t i = 0; i < p->waits; i++) {
        const struct message *m = &p->slots[i];
        if (!is_counted(m->kind) || m->sender >= p->posts)
            return false;
        if (m->counter < 1 || m->counter > p->last[m->sender])
            return false;
        uint64_t t = stamp(m->counter, m->sender);
        if (t <= top)
            return false;
        top = t;
        counts[m->sender]++;
        if (m->sender == p->own) {
            if (m->kind == TAKE)
                takes++;
            else
                returns++;
            end = m->kind;
        }
    }
    if (p->posts == 1 && p->waits != 0)
        return false;
    for (uint8_t i = p->waits; i < SLOTS; i++) {
        const struct message *m = &p->slots[i];
        if (m->kind != 0 || m->sender != 0 || m->counter != 0)
            return false;
    }
    for (uint8_t q = 0; q < p->posts; q++) {
        if (q != p->own && counts[q] > WAITING)
            return false;
    }
    return own_fits(p->phase, takes, returns, end);
}

static bool counts_fit(const struct post *p)
{
    uint64_t most = 0;
    for (uint8_t q = 0; q < POSTS; q++)
        most += p->last[q];
    return p->takes <= most && p->returns <= most - p->takes && p->waits <= most - p->takes - p->returns;
}

static bool order_fits(const struct post *p)
{
    if (p->phase <= 1)
        return p->order == 0;
    if (p->order < 1 || p->order > p->takes)
        return false;
    uint64_t room = p->places + p->returns;
    return p->phase == 3 ? p->order <= room : p->order > room;
}

static bool check(const struct post *p, uint8_t counts[POSTS])
{
    return in_range(p->posts, p->own, p->places) && p->phase <= 3 && p->waits <= SLOTS && lasts_fit(p) &&
           slots_fit(p, counts) && counts_fit(p) && order_fits(p);
}

bool post_sound(const struct post *p)
{
    uint8_t counts[POSTS];
    return check(p, counts);
}

/* From the newest down, those above the new message move one place up. */
static void insert(struct post *p, struct message m)
{
    uint64_t t = stamp(m.counter, m.sender);
    uint8_t i = p->waits;
    while (i > 0 && stamp(p->slots[i - 1].counter, p->slots[i - 1].sender) > t) {
        p->slots[i] = p->slots[i - 1];
        i--;
    }
    p->slots[i] = m;
    p->waits++;
}

/* Counts what is settled, takes it out of the slots, and gives the own take its number and its grant. */
static bool settle(struct post *p)
{
    uint64_t floor = floor_of(p);
    uint8_t k = 0;
    bool waited = p->phase == 1 || p->phase == 2;

    while (k < p->waits && stamp(p->slots[k].counter, p->slots[k].sender) <= floor) {
        const struct message *m = &p->slots[k];
        if (m->kind == TAKE) {
            p->takes++;
            if (m->sender == p->own) {
                p->order = p->takes;
                p->phase = 2;
            }
        } else {
            p->returns++;
        }
        k++;
    }
    if (k > 0) {
        p->waits -= k;
        memmove(p->slots, p->slots + k, p->waits * sizeof p->slots[0]);
        memset(p->slots + p->waits, 0, k * sizeof p->slots[0]);
    }
    if (p->phase == 2 && p->order <= p->places + p->returns)
        p->phase = 3;
    return waited && p->phase == 3;
}

static void write_frame(uint8_t *buf, uint8_t feeder, struct message m)
{
    buf[0] = 'F';
    buf[1] = 'P';
    buf[2] = 'M';
    buf[3] = 0;
    buf[4] = 1;
    buf[5] = feeder;
    buf[6] = m.kind;
    buf[7] = m.sender;
    buf[8] = (uint8_t)(m.counter >> 24);
    buf[9] = (uint8_t)(m.counter >> 16);
    buf[10] = (uint8_t)(m.counter >> 8);
    buf[11] = (uint8_t)m.counter;
}

uint8_t post_start(struct post *p, uint8_t posts, uint8_t own, uint8_t feeder, uint8_t places)
{
    memset(p, 0, sizeof *p);
    if (!in_range(posts, own, places))
        return 1;
    p->posts = posts;
    p->own = own;
    p->feeder = feeder;
    p->places = places;
    return 0;
}

/* Sends an own take or return, which goes out in one phase alone. */
static uint8_t say(struct post *p, uint8_t kind, uint8_t from, uint8_t to, uint8_t other, uint8_t *buf,
                   size_t size, struct marks *marks)
{
    *marks = (struct marks){ false, false };
    if (!post_sound(p))
        return 1;
    if (size < FRAME)
        return 2;
    if (p->phase != from)
        return other;
    if (p->clock == last_counter)
        return 11;

    p->clock++;
    struct message m = { kind, p->own, p->clock };
    p->last[p->own] = p->clock;
    p->phase = to;
    p->order = 0;
    insert(p, m);
    write_frame(buf, p->feeder, m);
    marks->wrote = true;
    marks->granted = settle(p);
    return 0;
}

uint8_t post_take(struct post *p, uint8_t *buf, size_t size, struct marks *marks)
{
    return say(p, TAKE, 0, 1, 13, buf, size, marks);
}

uint8_t post_return(struct post *p, uint8_t *buf, size_t size, struct marks *marks)
{
    return say(p, RETURN, 3, 0, 14, buf, size, marks);
}

/* The refusals of a frame from its length on; m gets its message. */
static uint8_t refusal(const struct post *p, const uint8_t counts[POSTS], const uint8_t *frame, size_t len,
                       struct message *m)
{
    if (len != FRAME)
        return 3;
    if (frame[0] != 'F' || frame[1] != 'P' || frame[2] != 'M')
        return 4;
    if (frame[3] != 0 || frame[4] != 1)
        return 5;
    if (frame[5] != p->feeder)
        return 6;
    m->kind = frame[6];
    m->sender = frame[7];
    m->counter = (uint32_t)frame[8] << 24 | (uint32_t)frame[9] << 16 | (uint32_t)frame[10] << 8 | frame[11];
    if (m->kind < TAKE || m->kind > ACK)
        return 7;
    if (m->sender == p->own || m->sender >= p->posts)
        return 8;
    if (m->counter == 0)
        return 9;
    if (m->counter <= p->last[m->sender])
        return 10;
    if (m->kind == ACK)
        return 0;
    if (p->clock == last_counter || m->counter == last_counter)
        return 11;
    if (counts[m->sender] >= WAITING)
        return 12;
    return 0;
}

uint8_t post_receive(struct post *p, const uint8_t *frame, size_t len, uint8_t *buf, size_t size,
                     struct marks *marks)
{
    uint8_t counts[POSTS];
    struct message m;

    *marks = (struct marks){ false, false };
    if (!check(p, counts))
        return 1;
    if (size < FRAME)
        return 2;
    uint8_t number = refusal(p, counts, frame, len, &m);
    if (number != 0)
        return number;

    p->last[m.sender] = m.counter;
    if (p->clock < m.counter)
        p->clock = m.counter;
    if (m.kind != ACK) {
        p->clock++;
        p->last[p->own] = p->clock;
        insert(p, m);
        write_frame(buf, p->feeder, (struct message){ ACK, p->own, p->clock });
        marks->wrote = true;
    }
    marks->granted = settle(p);
    return 0;
}

uint8_t post_value(const struct post *p, int64_t *value)
{
    *value = 0;
    if (!post_sound(p))
        return 1;
    *value = (int64_t)(p->places + p->returns) - (int64_t)p->takes;
    return 0;
}

uint8_t post_missing(const struct post *p, uint16_t *set, uint32_t *count)
{
    *set = 0;
    *count = 0;
    if (!post_sound(p))
        return 1;
    if (p->phase != 1)
        return 0;

    uint64_t take = 0;
    for (uint8_t i = 0; i < p->waits; i++) {
        if (p->slots[i].sender == p->own && p->slots[i].kind == TAKE)
            take = stamp(p->slots[i].counter, p->slots[i].sender);
    }
    for (uint8_t q = 0; q < p->posts; q++) {
        if (q != p->own && stamp(p->last[q], q) < take) {
            *set |= (uint16_t)(1u << q);
            ++*count;
        }
    }
    return 0;
}
