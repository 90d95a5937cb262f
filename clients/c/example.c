/* example MISSION PROGRAM [WORD..]: a simulated vehicle beside the guard, for missions/line.mission.
 *
 *   cc -std=c99 -o example example.c soter_guard.c -lm
 *   ./example missions/line.mission ./soter_guard
 *
 * The planner drives to the right for ever. At tick 8 it wants 1e19, and at tick 24 the sensor says no number. */
#include <math.h>
#include <stdio.h>
#include <stdlib.h>

#include "soter_guard.h"

static void stop_the_motor(void *user, const char *why)
{
    *(double *)user = 0;
    fprintf(stderr, "no guard, the motor is stopped: %s\n", why);
}

static char *text_of(const char *path, size_t *length)
{
    FILE *file = fopen(path, "rb");
    char *text = (char *)malloc(1 << 24);

    *length = file != NULL && text != NULL ? fread(text, 1, 1 << 24, file) : 0;
    if (file != NULL)
        fclose(file);
    return text;
}

int main(int count, char **words)
{
    const int decimals[] = {0};
    const char *const scalars[] = {"cmd"};
    double x = 0, wanted = 2, seen, motor = 0;
    soter_guard_numbers pos = {"pos", &x, decimals, 1}, fast = {"fast", &wanted, decimals, 1};
    soter_guard_options options = {0};
    soter_guard_instant instant;
    soter_guard *guard;
    int tick, status;
    char *mission;

    if (count < 3)
        return 2;
    mission = text_of(words[1], &options.mission_length);
    options.program = (const char *const *)(words + 2);
    options.mission = mission;
    options.deadline = 0.5;
    options.opening_deadline = 60;
    options.fallback = stop_the_motor;
    options.user = &motor;
    options.log = -1;
    guard = soter_guard_open(&options);
    free(mission);
    if (guard == NULL)
        return 1;
    soter_guard_start(guard, &pos);
    pos.values = &seen;
    for (tick = 0; tick < 40; tick++) {
        int64_t command = 0;
        wanted = tick == 8 ? 1e19 : 2;
        if (soter_guard_is_due(guard, "fast"))
            soter_guard_draft(guard, &fast, scalars);
        if (soter_guard_go(guard, &instant) != SOTER_GUARD_DONE
            || soter_guard_held(guard, "pos", "cmd", &command) != SOTER_GUARD_DONE)
            break;
        motor = (double)command;
        printf("tick %d at %g motor %g%s%s\n", tick, x, motor,
               instant.trouble != NULL ? ": " : "", instant.trouble != NULL ? instant.trouble : "");
        x += motor;
        seen = tick == 24 ? NAN : x;
        soter_guard_tick(guard, &pos, 1);
    }
    status = soter_guard_close(guard);
    printf("status %d\n", status);
    return status < 0;
}
