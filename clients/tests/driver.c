/* driver MISSION LOG DEADLINE PROGRAM [WORD..]: does what lines of standard input say with the C client, and writes
 * what came of it. LOG is `-` for none. For `scripts/try_clients`, which does the same with the Python client.
 *
 *   start PLANT D V ..      input TOPIC D V ..      draft NODE SCALAR D V ..     tick PLANT D V .. / PLANT D V ..
 *   text NODE TEXT          go                      held PLANT SCALAR            mantissa D V
 *   due NODE                resume                  decimals KIND OWNER NAME
 *
 * D is a count of decimals and V a value. In a TEXT `\n` stands for a line end, and `*` for 70,000 digits. */
#include <fcntl.h>
#include <inttypes.h>
#include <stdio.h>
#include <stdlib.h>
#include <string.h>
#include <unistd.h>

#include "soter_guard.h"

#define MANY 64
#define PLANTS 16

static double values[MANY];
static int decimals[MANY];
static const char *scalars[MANY];
static char said[200000];

static void fall_back(void *user, const char *why)
{
    ++*(int *)user;
    printf("fallback %s\n", why);
    fflush(stdout);
}

static char *word(void)
{
    return strtok(NULL, " ");
}

/* How many pairs of decimals and value come up to `/` or the end; they may have a scalar in front of each. */
static size_t pairs(size_t at, int with_scalars)
{
    size_t count = 0;
    char *first;

    while (at + count < MANY && (first = word()) != NULL && strcmp(first, "/") != 0) {
        if (with_scalars) {
            scalars[at + count] = first;
            first = word();
        }
        decimals[at + count] = atoi(first);
        values[at + count] = strtod(word(), NULL);
        count++;
    }
    return count;
}

static soter_guard_numbers numbers(size_t at, int with_scalars)
{
    soter_guard_numbers found;

    found.name = word();
    found.values = values + at;
    found.decimals = decimals + at;
    found.count = found.name == NULL ? 0 : pairs(at, with_scalars);
    return found;
}

static int tick(soter_guard *guard)
{
    soter_guard_numbers plants[PLANTS];
    size_t count = 0, at = 0;

    while (count < PLANTS && (plants[count] = numbers(at, 0)).name != NULL)
        at += plants[count++].count;
    return soter_guard_tick(guard, plants, count);
}

static int text(soter_guard *guard, char *node)
{
    const char *from = strtok(NULL, "");
    size_t at = 0;

    for (; from != NULL && *from != '\0'; from++) {
        if (from[0] == '\\' && from[1] == 'n') {
            said[at++] = '\n';
            from++;
        } else if (*from == '*') {
            memset(said + at, '1', 70000);
            at += 70000;
        } else {
            said[at++] = *from;
        }
    }
    said[at] = '\0';
    return soter_guard_draft_text(guard, node, said);
}

static int go(soter_guard *guard)
{
    soter_guard_instant instant;
    int result = soter_guard_go(guard, &instant);

    if (result == SOTER_GUARD_DONE)
        printf("at %" PRId64 " trusted %d ignored %d trouble %s\n", instant.time, instant.is_trusted, instant.ignored,
               instant.trouble == NULL ? "none" : instant.trouble);
    return result;
}

static int resume(soter_guard *guard)
{
    int is_trusted = 0, result = soter_guard_resume(guard, &is_trusted);

    printf("trusted %d\n", is_trusted);
    return result;
}

static int number(int64_t *found)
{
    int of = atoi(word());

    return soter_guard_mantissa(strtod(word(), NULL), of, found);
}

static int done(soter_guard *guard, const char *kind)
{
    soter_guard_numbers found;
    int64_t mantissa = 0;
    char *plant;
    int result;

    if (strcmp(kind, "go") == 0)
        return go(guard);
    if (strcmp(kind, "resume") == 0)
        return resume(guard);
    if (strcmp(kind, "due") == 0) {
        printf("due %d\n", soter_guard_is_due(guard, word()));
        return SOTER_GUARD_DONE;
    }
    if (strcmp(kind, "decimals") == 0) {
        char *of = word(), *owner = word();
        printf("decimals %d\n", soter_guard_decimals(guard, of, owner, word()));
        return SOTER_GUARD_DONE;
    }
    if (strcmp(kind, "tick") == 0)
        return tick(guard);
    if (strcmp(kind, "text") == 0)
        return text(guard, word());
    if (strcmp(kind, "held") == 0 || strcmp(kind, "mantissa") == 0) {
        plant = kind[0] == 'h' ? word() : NULL;
        result = plant != NULL ? soter_guard_held(guard, plant, word(), &mantissa) : number(&mantissa);
        printf("%s %" PRId64 "\n", kind, mantissa);
        return result;
    }
    found = numbers(0, strcmp(kind, "draft") == 0);
    if (strcmp(kind, "start") == 0)
        return soter_guard_start(guard, &found);
    return strcmp(kind, "input") == 0 ? soter_guard_input(guard, &found) : soter_guard_draft(guard, &found, scalars);
}

static char *text_of(const char *path, size_t *length)
{
    FILE *file = fopen(path, "rb");
    char *found = (char *)malloc(1 << 24);

    *length = file != NULL && found != NULL ? fread(found, 1, 1 << 24, file) : 0;
    if (file != NULL)
        fclose(file);
    return found;
}

int main(int count, char **words)
{
    static char line[200000];
    soter_guard_options options = {0};
    soter_guard *guard;
    int fallen = 0;
    char *mission, *kind;

    if (count < 5)
        return 2;
    mission = text_of(words[1], &options.mission_length);
    options.mission = mission;
    options.program = (const char *const *)(words + 4);
    options.deadline = strtod(words[3], NULL);
    options.opening_deadline = 60;
    options.fallback = fall_back;
    options.user = &fallen;
    options.log = strcmp(words[2], "-") == 0 ? -1 : open(words[2], O_WRONLY | O_CREAT | O_TRUNC, 0600);
    guard = soter_guard_open(&options);
    free(mission);
    while (guard != NULL && fgets(line, sizeof line, stdin) != NULL) {
        line[strcspn(line, "\n")] = '\0';
        kind = strtok(line, " ");
        printf("%s result %d\n", kind, done(guard, kind));
        fflush(stdout);
    }
    printf("status %d fallen %d\n", soter_guard_close(guard), fallen);
    if (options.log >= 0)
        close(options.log);
    return 0;
}
