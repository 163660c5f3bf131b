/* The calls by value: the record is copied into the answer and altered there. */
#include "post.h"

static void note(struct answer *a, uint8_t number, const struct marks *marks)
{
    a->number = number;
    a->wrote = marks->wrote;
    a->granted = marks->granted;
}

struct answer value_take(struct post p, uint8_t *buf, size_t size)
{
    struct answer a = { .post = p };
    struct marks marks;
    note(&a, post_take(&a.post, buf, size, &marks), &marks);
    return a;
}

struct answer value_return(struct post p, uint8_t *buf, size_t size)
{
    struct answer a = { .post = p };
    struct marks marks;
    note(&a, post_return(&a.post, buf, size, &marks), &marks);
    return a;
}

struct answer value_receive(struct post p, const uint8_t *frame, size_t len, uint8_t *buf, size_t size)
{
    struct answer a = { .post = p };
    struct marks marks;
    note(&a, post_receive(&a.post, frame, len, buf, size, &marks), &marks);
    return a;
}

struct value value_value(struct post p)
{
    struct value v;
    v.number = post_value(&p, &v.value);
    return v;
}

struct missing value_missing(struct post p)
{
    struct missing m;
    m.number = post_missing(&p, &m.set, &m.count);
    return m;
}

bool value_sound(struct post p)
{
    return post_sound(&p);
}
