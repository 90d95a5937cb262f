/* A client of the program `soter_guard`, which runs a checked mission beside a robot.
 *
 * C99 and POSIX.1-2008; usable from C++. docs/CLIENTS.md tells how it is used. It is tested and not proved.
 *
 * Numbers are handed over in units with their count of decimals, and told as mantissas, rounded to the nearest and
 * half to even. Where the guard is lost, `fallback` is called once, before anything else, and each later call returns
 * SOTER_GUARD_LOST. Nothing is allocated once the guard is open. One thread uses a guard. */
#ifndef SOTER_GUARD_H
#define SOTER_GUARD_H

#include <stddef.h>
#include <stdint.h>

#ifdef __cplusplus
extern "C" {
#endif

typedef struct soter_guard soter_guard;

enum soter_guard_result {
    SOTER_GUARD_DONE = 0,
    SOTER_GUARD_LEFT_OUT = 1,   /* a draft, an input or a start has no number that can be told: nothing was told */
    SOTER_GUARD_UNSEEN = 2,     /* a tick was told as `tick lost`: the guard is blind then */
    SOTER_GUARD_WRONG_USE = -1, /* a call out of turn, a name or decimals that the guard has not said, or a line too long:
                                   nothing was told */
    SOTER_GUARD_LOST = -2       /* the guard is heard no more, and the fallback has been called */
};

/* Some numbers of one plant, topic or node: `values` in units, with the decimals of each. */
typedef struct {
    const char *name;
    const double *values;
    const int *decimals;
    size_t count;
} soter_guard_numbers;

typedef struct {
    const char *const *program; /* its words, the last one NULL */
    const char *mission;        /* the program and its certificate, as for `soter check` */
    size_t mission_length;
    double deadline;            /* the longest time in seconds for an answer */
    double opening_deadline;    /* and for the check of the mission */
    void (*fallback)(void *user, const char *why); /* brings the robot to rest without a guard */
    void *user;
    int log;                    /* a file descriptor for both sides of the talk; -1 for none */
    int64_t first_time;         /* the time in ticks at which the talk begins, from 0 on */
} soter_guard_options;

/* What the guard said of one instant. The lines stand until the next call. */
typedef struct {
    int64_t time;
    int is_trusted;      /* whether the models are trusted still */
    int ignored;         /* how many drafts, inputs and resumes were not taken */
    const char *trouble; /* the line `outside` or `blind`, in the instant in which it comes; NULL else */
} soter_guard_instant;

/* Starts the program, and waits until the mission is accepted and the guard has said what it has. NULL where it is not
 * accepted; the fallback was called then. */
soter_guard *soter_guard_open(const soter_guard_options *options);

/* What the guard has said of the mission: lines as `says state pos x scale 0 range LOW HIGH`, each with its line end.
 * docs/FORMATS.md lists them. The text stands until the guard is closed. */
const char *soter_guard_outline(const soter_guard *guard);

/* The decimals of a `state` or `command` of a plant, an `input` of a topic, or a `draft` of a node, as they are said in
 * those lines: 0 to 6, or SOTER_GUARD_WRONG_USE where there is no such number. */
int soter_guard_decimals(const soter_guard *guard, const char *kind, const char *owner, const char *name);

/* Where a plant was observed first: once for each plant, in the order of the mission. */
int soter_guard_start(soter_guard *guard, const soter_guard_numbers *plant);

/* What came on an environment topic. */
int soter_guard_input(soter_guard *guard, const soter_guard_numbers *topic);

/* What an external node wants; `scalars` names as many of its scalars as there are numbers, in the node's order. */
int soter_guard_draft(soter_guard *guard, const soter_guard_numbers *node, const char *const *scalars);

/* The same by what a planner wrote itself, as `cmd=2`, in mantissas: at most one line, cut between two words. */
int soter_guard_draft_text(soter_guard *guard, const char *node, const char *text);

/* Whether an external node is due in the present instant, or behind a `go` in the next one, by what the guard said: 1
 * or 0, and 0 where the guard is lost. It may be called once all plants were started. */
int soter_guard_is_due(soter_guard *guard, const char *node);

/* Asks that the models are trusted again, in this instant, and waits for the answer: whether they are, 1 or 0. They
 * are where every plant was observed at this time, and the commands in force hold every module safe until its safe node
 * fires. */
int soter_guard_resume(soter_guard *guard, int *is_trusted);

/* All of this instant was said: what happened. */
int soter_guard_go(soter_guard *guard, soter_guard_instant *instant);

/* The command of a plant that is in force until the next tick, by the last `go`: 0, or SOTER_GUARD_WRONG_USE. */
int soter_guard_held(const soter_guard *guard, const char *plant, const char *scalar, int64_t *mantissa);

/* Where all plants were observed after a tick, in the order of the mission. */
int soter_guard_tick(soter_guard *guard, const soter_guard_numbers *plants, size_t count);

/* The time in ticks. */
int64_t soter_guard_time(const soter_guard *guard);

/* Why the guard was lost, or NULL. */
const char *soter_guard_why(const soter_guard *guard);

/* Ends the talk, where the robot is at rest, and frees the guard: the status of the program, or SOTER_GUARD_LOST. */
int soter_guard_close(soter_guard *guard);

/* The nearest mantissa, half to even: 0, or SOTER_GUARD_LEFT_OUT where 64 bits have none. Decimals are 0 to 6. */
int soter_guard_mantissa(double value, int decimals, int64_t *mantissa);

#ifdef __cplusplus
}
#endif
#endif
