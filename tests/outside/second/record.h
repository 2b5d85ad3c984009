/* The record of C beside that of the second implementation: its fields are named here, the counters in second.h. */
#ifndef RECORD_H
#define RECORD_H

#include "lohitunga.h"
#include "second.h"

/*
 * Each field that is no counter, and what it becomes where the second implementation has the record `s`
 * and C's was `r`. Any number but 0 is a mark; it is rewritten only where its meaning changes.
 */
#define RECORD_PLAIN(FIELD) \
    FIELD(pid, s->pid) \
    FIELD(last, s->has_counter ? s->counter : LOHITUNGA_NO_COUNTER) \
    FIELD(mark, (r->mark != 0) == s->mark ? r->mark : s->mark) \
    FIELD(rejection, s->rejection) \
    FIELD(in_hand, s->in_hand)

static inline struct second_record record_in(const lohitunga_record *r)
{
    struct second_record s = {r->pid, r->last != LOHITUNGA_NO_COUNTER, r->last, r->mark != 0, r->rejection, r->in_hand, {0}};
#define COUNTER_IN(NAME, field, words) s.counters[SECOND_##NAME] = r->field;
    SECOND_COUNTED(COUNTER_IN)
#undef COUNTER_IN
    return s;
}

static inline void record_out(lohitunga_record *r, const struct second_record *s)
{
#define PLAIN_OUT(field, value) r->field = value;
#define COUNTER_OUT(NAME, field, words) r->field = s->counters[SECOND_##NAME];
    RECORD_PLAIN(PLAIN_OUT)
    SECOND_COUNTED(COUNTER_OUT)
#undef PLAIN_OUT
#undef COUNTER_OUT
}

/* The names of the fields, each with a space behind it, and their values in the same order. */
#define PLAIN_NAME(field, value) #field " "
#define COUNTER_NAME(NAME, field, words) #field " "
#define RECORD_COUNTERS SECOND_COUNTED(COUNTER_NAME)
#define RECORD_NAMES RECORD_PLAIN(PLAIN_NAME) RECORD_COUNTERS
enum { RECORD_MOST = 32 };

static inline unsigned record_counters(const lohitunga_record *r, long long *to)
{
    unsigned n = 0;
#define COUNTER_VALUE(NAME, field, words) to[n++] = r->field;
    SECOND_COUNTED(COUNTER_VALUE)
#undef COUNTER_VALUE
    return n;
}

static inline unsigned record_values(const lohitunga_record *r, long long *to)
{
    unsigned n = 0;
#define PLAIN_VALUE(field, value) to[n++] = (long long)r->field;
    RECORD_PLAIN(PLAIN_VALUE)
#undef PLAIN_VALUE
    return n + record_counters(r, to + n);
}

#endif
