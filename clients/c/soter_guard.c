#define _POSIX_C_SOURCE 200809L
#include "soter_guard.h"

#include <errno.h>
#include <fcntl.h>
#include <math.h>
#include <poll.h>
#include <signal.h>
#include <spawn.h>
#include <stdio.h>
#include <stdlib.h>
#include <string.h>
#include <sys/socket.h>
#include <sys/types.h>
#include <sys/wait.h>
#include <time.h>
#include <unistd.h>

#define LONGEST 65000     /* bytes of a line that is told; the guard ends where one has 65,536 */
#define ROOM 262144       /* bytes of the longest line that is heard, and of all commands of an instant */
#define REASON 512        /* bytes of the reason for which a guard was lost */
#define DECIMALS 6        /* the most that a mission can have */

extern char **environ;

enum turn { STARTS, INSTANT, TICK };

struct soter_guard {
    soter_guard_options options;
    pid_t process;
    int to, from;             /* a socket to the program, and a pipe from it */
    int is_lost, is_trusted;
    int64_t resumes;          /* how many lines `resume` were answered */
    enum turn turn;
    int64_t time;
    size_t said_length;       /* of the line that is built */
    size_t heard_length;      /* of what was heard and not looked at */
    int is_ready;             /* whether all lines of this instant were looked at */
    soter_guard_instant instant;
    size_t answer_length;     /* of the last instant, which stands in `answer` */
    char *outline;            /* the lines `says ..` of the mission, each with its line end */
    size_t outline_length, outline_room;
    char why[REASON];
    char due[ROOM + 1];       /* the names behind the last `begins` or `ready`, each between two blanks; empty before it */
    char trouble[REASON];
    char said[LONGEST + 2];
    char heard[ROOM + 1];
    char answer[ROOM + 1];
};

/* --- numbers ---------------------------------------------------------------------------------- */

/* Of a magnitude below 2^52: the nearest whole number, half to even. What it is short of the true one is `error`. */
static double nearest(double near, double error)
{
    double below = floor(near), part = near - below;

    if (part > 0.5 || (part == 0.5 && (error > 0 || (error == 0 && fmod(below, 2) != 0))))
        below += 1;
    return below;
}

/* The product is exact as `near + error`, so a tie is told from what is just beside it. `near` is volatile, since no
 * compiler may contract it with what follows. */
int soter_guard_mantissa(double value, int decimals, int64_t *mantissa)
{
    static const double powers[DECIMALS + 1] = {1e0, 1e1, 1e2, 1e3, 1e4, 1e5, 1e6};
    const double end = 9223372036854775808.0, whole = 4503599627370496.0;
    volatile double near;
    double error;

    if (decimals < 0 || decimals > DECIMALS || !isfinite(value))
        return SOTER_GUARD_LEFT_OUT;
    near = value * powers[decimals];
    if (!isfinite(near) || fabs(near) > end)
        return SOTER_GUARD_LEFT_OUT;
    error = fma(value, powers[decimals], -near);
    if (fabs(near) < whole) {
        *mantissa = near < 0 ? -(int64_t)nearest(-near, -error) : (int64_t)nearest(near, error);
        return SOTER_GUARD_DONE;
    }
    error = nearbyint(error);
    if ((near == end && error >= 0) || (near == -end && error < 0))
        return SOTER_GUARD_LEFT_OUT;
    *mantissa = near == end ? INT64_MAX + ((int64_t)error + 1) : (int64_t)near + (int64_t)error;
    return SOTER_GUARD_DONE;
}

/* --- what the guard has said of the mission --------------------------------------------------- */

/* Goes over a word and what ends it, and tells whether it was that word. */
static int take_word(const char **at, const char *word)
{
    size_t length = strlen(word);

    if (strncmp(*at, word, length) != 0 || ((*at)[length] != ' ' && (*at)[length] != '\n'))
        return 0;
    *at += length + 1;
    return 1;
}

static const char *next_line(const char *line)
{
    return strchr(line, '\n') + 1;
}

/* What a line of this kind says of this owner, behind both; NULL where it is another line. */
static const char *said_of(const char *line, const char *kind, const char *owner)
{
    return take_word(&line, "says") && take_word(&line, kind) && take_word(&line, owner) ? line : NULL;
}

/* The decimals that a line says behind the name of a number. */
static int scale_in(const char *said)
{
    const char *scale = strchr(said, ' ') + 1;

    return take_word(&scale, "scale") ? atoi(scale) : SOTER_GUARD_WRONG_USE;
}

/* Whether these are all numbers of this kind and owner, each with its decimals. */
static int are_all(const soter_guard *guard, const char *kind, const soter_guard_numbers *numbers)
{
    const char *line, *said;
    size_t found = 0;

    for (line = guard->outline; *line != '\0'; line = next_line(line)) {
        if ((said = said_of(line, kind, numbers->name)) == NULL)
            continue;
        if (found == numbers->count || numbers->decimals[found] != scale_in(said))
            return 0;
        found++;
    }
    return found > 0 && found == numbers->count;
}

/* Whether these are all plants in order, with all their states. */
static int are_plants(const soter_guard *guard, const soter_guard_numbers *plants, size_t count)
{
    const char *line, *said;
    size_t plant = 0, found = 0;

    for (line = guard->outline; *line != '\0'; line = next_line(line)) {
        said = line;
        if (!take_word(&said, "says") || !take_word(&said, "state"))
            continue;
        if (plant < count && found == plants[plant].count) {
            plant++;
            found = 0;
        }
        if (plant == count || plants[plant].name == NULL || !take_word(&said, plants[plant].name)
            || plants[plant].decimals[found] != scale_in(said))
            return 0;
        found++;
    }
    return count == 0 || (plant + 1 == count && found == plants[plant].count);
}

static int is_external(const soter_guard *guard, const char *node)
{
    const char *line;

    for (line = guard->outline; *line != '\0'; line = next_line(line))
        if (said_of(line, "external", node) != NULL)
            return 1;
    return 0;
}

/* Whether a node may draft these scalars, in its order, each with its decimals. */
static int may_draft(const soter_guard *guard, const soter_guard_numbers *node, const char *const *scalars)
{
    const char *line, *said;
    size_t found = 0;

    for (line = guard->outline; *line != '\0' && found < node->count; line = next_line(line)) {
        const char *name = said = said_of(line, "draft", node->name);
        if (said == NULL || scalars[found] == NULL || !take_word(&said, scalars[found]))
            continue;
        if (node->decimals[found] != scale_in(name))
            return 0;
        found++;
    }
    return found == node->count;
}

int soter_guard_decimals(const soter_guard *guard, const char *kind, const char *owner, const char *name)
{
    const char *line, *said;

    for (line = guard->outline; *line != '\0'; line = next_line(line)) {
        const char *number = said = said_of(line, kind, owner);
        if (said != NULL && take_word(&said, name))
            return scale_in(number);
    }
    return SOTER_GUARD_WRONG_USE;
}

const char *soter_guard_outline(const soter_guard *guard)
{
    return guard->outline;
}

/* --- the line that is built ------------------------------------------------------------------- */

static int put(soter_guard *guard, const char *text)
{
    size_t length = strlen(text);

    if (length > LONGEST - guard->said_length)
        return SOTER_GUARD_WRONG_USE;
    memcpy(guard->said + guard->said_length, text, length);
    guard->said_length += length;
    return SOTER_GUARD_DONE;
}

static int put_number(soter_guard *guard, int64_t number)
{
    char digits[24];
    size_t at = sizeof digits;
    uint64_t rest = number < 0 ? 0 - (uint64_t)number : (uint64_t)number;

    digits[--at] = '\0';
    do {
        digits[--at] = (char)('0' + rest % 10);
        rest /= 10;
    } while (rest != 0);
    if (number < 0)
        digits[--at] = '-';
    return put(guard, digits + at);
}

static int is_name(const char *name)
{
    size_t i;

    if (name == NULL || name[0] == '\0' || (name[0] >= '0' && name[0] <= '9'))
        return 0;
    for (i = 0; name[i] != '\0'; i++) {
        char c = name[i];
        int is_letter = (c >= 'a' && c <= 'z') || (c >= 'A' && c <= 'Z') || c == '_';
        if (!is_letter && !(c >= '0' && c <= '9'))
            return 0;
    }
    return 1;
}

/* Numbers with commas between them. */
static int put_numbers(soter_guard *guard, const soter_guard_numbers *numbers)
{
    size_t i;
    int result;

    for (i = 0; i < numbers->count; i++) {
        int64_t mantissa = 0;
        result = soter_guard_mantissa(numbers->values[i], numbers->decimals[i], &mantissa);
        if (result == SOTER_GUARD_DONE && i > 0)
            result = put(guard, ",");
        if (result == SOTER_GUARD_DONE)
            result = put_number(guard, mantissa);
        if (result != SOTER_GUARD_DONE)
            return result;
    }
    return SOTER_GUARD_DONE;
}

/* ` PLANT(X,..)` */
static int put_place(soter_guard *guard, const soter_guard_numbers *plant)
{
    int result;

    if (!is_name(plant->name) || plant->count == 0)
        return SOTER_GUARD_WRONG_USE;
    if ((result = put(guard, " ")) != SOTER_GUARD_DONE || (result = put(guard, plant->name)) != SOTER_GUARD_DONE
        || (result = put(guard, "(")) != SOTER_GUARD_DONE || (result = put_numbers(guard, plant)) != SOTER_GUARD_DONE)
        return result;
    return put(guard, ")");
}

/* --- the end ---------------------------------------------------------------------------------- */

static int stop(soter_guard *guard)
{
    int status = 0;

    if (guard->to >= 0)
        close(guard->to);
    if (guard->from >= 0)
        close(guard->from);
    guard->to = guard->from = -1;
    if (guard->process > 0) {
        kill(guard->process, SIGKILL);
        while (waitpid(guard->process, &status, 0) < 0 && errno == EINTR)
            continue;
        guard->process = -1;
        return WIFEXITED(status) ? WEXITSTATUS(status) : SOTER_GUARD_LOST;
    }
    return SOTER_GUARD_LOST;
}

static void copy(char *to, const char *from)
{
    size_t length = strlen(from);

    if (length > REASON - 1)
        length = REASON - 1;
    memcpy(to, from, length);
    to[length] = '\0';
}

/* First of all the robot falls back, then the program is ended. */
static int lose(soter_guard *guard, const char *why)
{
    if (!guard->is_lost) {
        guard->is_lost = 1;
        copy(guard->why, why);
        guard->options.fallback(guard->options.user, guard->why);
        stop(guard);
    }
    return SOTER_GUARD_LOST;
}

/* --- the pipes -------------------------------------------------------------------------------- */

static double now(void)
{
    struct timespec at;

    clock_gettime(CLOCK_MONOTONIC, &at);
    return (double)at.tv_sec + 1e-9 * (double)at.tv_nsec;
}

/* A log that fails is given up, and the talk goes on. */
static void keep(soter_guard *guard, const char *text, size_t length)
{
    while (guard->options.log >= 0 && length > 0) {
        ssize_t written = write(guard->options.log, text, length);
        if (written < 0 && errno == EINTR)
            continue;
        if (written <= 0) {
            guard->options.log = -1;
            return;
        }
        text += written;
        length -= (size_t)written;
    }
}

/* Keeps the lines that came complete with what was read now. */
static void keep_lines(soter_guard *guard, size_t before)
{
    size_t begin = before, end = guard->heard_length;

    while (begin > 0 && guard->heard[begin - 1] != '\n')
        begin--;
    while (end > begin && guard->heard[end - 1] != '\n')
        end--;
    keep(guard, guard->heard + begin, end - begin);
}

static int read_some(soter_guard *guard)
{
    size_t before = guard->heard_length;
    ssize_t read_now;

    if (before == ROOM)
        return lose(guard, "the guard says more than there is room for");
    read_now = read(guard->from, guard->heard + before, ROOM - before);
    if (read_now < 0 && (errno == EINTR || errno == EAGAIN))
        return SOTER_GUARD_DONE;
    if (read_now <= 0)
        return lose(guard, "the guard has ended");
    guard->heard_length += (size_t)read_now;
    guard->heard[guard->heard_length] = '\0';
    keep_lines(guard, before);
    return SOTER_GUARD_DONE;
}

static int write_some(soter_guard *guard, const char **text, size_t *length)
{
    ssize_t written = send(guard->to, *text, *length, MSG_NOSIGNAL);

    if (written < 0 && (errno == EINTR || errno == EAGAIN))
        return SOTER_GUARD_DONE;
    if (written < 0)
        return lose(guard, "the pipe to the guard broke");
    *text += written;
    *length -= (size_t)written;
    return SOTER_GUARD_DONE;
}

/* Waits until a side is ready, and writes and reads there. */
static int exchange(soter_guard *guard, const char **text, size_t *length, double end)
{
    double left = end - now();
    struct pollfd sides[2];

    if (left <= 0)
        return lose(guard, "there was no answer within the deadline");
    sides[0].fd = guard->from;
    sides[0].events = POLLIN;
    sides[1].fd = guard->to;
    sides[1].events = POLLOUT;
    sides[0].revents = sides[1].revents = 0;
    if (poll(sides, *length > 0 ? 2 : 1, left > 1e6 ? 1000000000 : (int)(left * 1000) + 1) < 0 && errno != EINTR)
        return lose(guard, "the guard cannot be waited for");
    /* what it said comes first: a guard that ends has said why */
    if (sides[0].revents != 0)
        return read_some(guard);
    return sides[1].revents != 0 ? write_some(guard, text, length) : SOTER_GUARD_DONE;
}

/* --- what is heard ---------------------------------------------------------------------------- */

/* The length of the first complete line, which becomes a text of its own; 0 where there is none yet. */
static size_t first_line(soter_guard *guard)
{
    char *end = (char *)memchr(guard->heard, '\n', guard->heard_length);

    if (end == NULL)
        return 0;
    *end = '\0';
    return (size_t)(end - guard->heard) + 1;
}

/* Takes the first line away. */
static void drop(soter_guard *guard, size_t length)
{
    guard->heard_length -= length;
    memmove(guard->heard, guard->heard + length, guard->heard_length);
}

/* What stands behind the time of a line, which has to begin with one; NULL where it does not. */
static const char *behind_time(const char *line, int64_t *at)
{
    size_t i;

    *at = 0;
    for (i = 0; line[i] >= '0' && line[i] <= '9' && i < 18; i++)
        *at = 10 * *at + (line[i] - '0');
    return i > 0 && line[i] == ' ' ? line + i + 1 : NULL;
}

static int begins(const char *text, const char *word)
{
    return strncmp(text, word, strlen(word)) == 0;
}

/* Puts a command line among those of the last instant. */
static int keep_held(soter_guard *guard, const char *held)
{
    size_t length = strlen(held);

    if (length + 2 > ROOM - guard->answer_length)
        return lose(guard, "the guard says more than there is room for");
    memcpy(guard->answer + guard->answer_length, held, length);
    guard->answer_length += length;
    guard->answer[guard->answer_length++] = '\n';
    guard->answer[guard->answer_length] = '\0';
    return SOTER_GUARD_DONE;
}

/* Whether a line is of this kind, alone or with words behind it. */
static int is_kind(const char *said, const char *kind)
{
    size_t length = strlen(kind);

    return begins(said, kind) && (said[length] == ' ' || said[length] == '\0');
}

/* Who is due now or next. A line is shorter than the room for their names. */
static void keep_due(soter_guard *guard, const char *names)
{
    size_t length = strlen(names);

    memcpy(guard->due, names, length);
    strcpy(guard->due + length, " ");
}

/* One line of an instant. A line that has no time in front tells why the program ends. */
static int hear_line(soter_guard *guard, const char *line)
{
    int64_t at;
    const char *said = behind_time(line, &at);

    if (said == NULL)
        return lose(guard, line);
    if (at != guard->time)
        return lose(guard, "the guard is at another time");
    if (begins(said, "hold "))
        return keep_held(guard, said + strlen("hold "));
    if (begins(said, "ignored "))
        guard->instant.ignored++;
    if (begins(said, "refused resume ") || begins(said, "ignored resume ") || strcmp(said, "resumed") == 0)
        guard->resumes++;
    if (strcmp(said, "resumed") == 0)
        guard->is_trusted = 1;
    if (begins(said, "outside ") || begins(said, "blind ")) {
        guard->is_trusted = 0;
        copy(guard->trouble, line);
        guard->instant.trouble = guard->trouble;
    }
    guard->is_ready = is_kind(said, "ready");
    if (guard->is_ready || is_kind(said, "begins"))
        keep_due(guard, said + strlen(guard->is_ready ? "ready" : "begins"));
    return SOTER_GUARD_DONE;
}

/* All lines that are complete, up to `ready`. */
static int hear_lines(soter_guard *guard)
{
    size_t length;
    int result = SOTER_GUARD_DONE;

    while (result == SOTER_GUARD_DONE && !guard->is_ready && (length = first_line(guard)) > 0) {
        result = hear_line(guard, guard->heard);
        drop(guard, length);
    }
    return result;
}

/* --- what is told ----------------------------------------------------------------------------- */

/* Tells a text, and leaves alone what comes back. */
static int tell_alone(soter_guard *guard, const char *text, size_t length, double end)
{
    int result = SOTER_GUARD_DONE;

    keep(guard, text, length);
    while (result == SOTER_GUARD_DONE && length > 0)
        result = exchange(guard, &text, &length, end);
    return result;
}

/* Tells a text, and hears what comes back meanwhile. */
static int tell(soter_guard *guard, const char *text, size_t length, double end)
{
    int result = SOTER_GUARD_DONE;

    keep(guard, text, length);
    while (result == SOTER_GUARD_DONE && length > 0) {
        result = exchange(guard, &text, &length, end);
        if (result == SOTER_GUARD_DONE)
            result = hear_lines(guard);
    }
    return result;
}

static int tell_line(soter_guard *guard)
{
    size_t length = guard->said_length;

    guard->said[length] = '\n';
    guard->said_length = 0;
    return tell(guard, guard->said, length + 1, now() + guard->options.deadline);
}

/* Whether a call may come now; the line that is built is empty then. */
static int begin(soter_guard *guard, enum turn turn)
{
    guard->said_length = 0;
    if (guard->is_lost)
        return SOTER_GUARD_LOST;
    return guard->turn == turn ? SOTER_GUARD_DONE : SOTER_GUARD_WRONG_USE;
}

/* --- opening ---------------------------------------------------------------------------------- */

/* Two ends that no program inherits, with numbers that are none of the three of a process. */
static int lift(int ends[2])
{
    int i, lifted;

    for (i = 0; i < 2; i++) {
        lifted = fcntl(ends[i], F_DUPFD_CLOEXEC, 3);
        close(ends[i]);
        ends[i] = lifted;
    }
    return ends[0] >= 0 && ends[1] >= 0 ? 0 : -1;
}

static int spawn(soter_guard *guard, int in, int out)
{
    posix_spawn_file_actions_t actions;
    const char *const *words = guard->options.program;
    int fault;

    if (posix_spawn_file_actions_init(&actions) != 0)
        return -1;
    fault = posix_spawn_file_actions_adddup2(&actions, in, 0);
    if (fault == 0)
        fault = posix_spawn_file_actions_adddup2(&actions, out, 1);
    if (fault == 0)
        fault = posix_spawnp(&guard->process, words[0], &actions, NULL, (char *const *)words, environ);
    posix_spawn_file_actions_destroy(&actions);
    if (fault != 0)
        guard->process = -1;
    return fault;
}

static int start_program(soter_guard *guard)
{
    int there[2], back[2], fault = -1;

    /* a socket, since a broken one can be told without a signal */
    if (socketpair(AF_UNIX, SOCK_STREAM, 0, there) != 0)
        return -1;
    if (pipe(back) != 0) {
        close(there[0]);
        close(there[1]);
        return -1;
    }
    if ((lift(there) | lift(back)) == 0)
        fault = spawn(guard, there[1], back[1]);
    close(there[1]);
    close(back[1]);
    guard->to = there[0];
    guard->from = back[0];
    if (fault == 0 && (fcntl(guard->to, F_SETFL, O_NONBLOCK) < 0 || fcntl(guard->from, F_SETFL, O_NONBLOCK) < 0))
        fault = -1;
    return fault;
}

/* Waits for the first line; 0 where the guard is lost. */
static size_t wait_line(soter_guard *guard, double end)
{
    const char *nothing = "";
    size_t none = 0, length;

    while ((length = first_line(guard)) == 0)
        if (exchange(guard, &nothing, &none, end) != SOTER_GUARD_DONE)
            return 0;
    return length;
}

/* Keeps a line that says something of the mission. */
static int keep_said(soter_guard *guard, const char *line)
{
    size_t length = strlen(line), room = guard->outline_length + length + 2;
    char *wider = guard->outline;

    if (room > guard->outline_room) {
        wider = (char *)realloc(guard->outline, 2 * room);
        if (wider == NULL)
            return lose(guard, "there is no memory");
        guard->outline = wider;
        guard->outline_room = 2 * room;
    }
    memcpy(wider + guard->outline_length, line, length);
    guard->outline_length += length;
    wider[guard->outline_length++] = '\n';
    wider[guard->outline_length] = '\0';
    return SOTER_GUARD_DONE;
}

/* Waits for all that is said of the mission, up to `says all`, and keeps it. Other lines are passed over. */
static int hear_mission(soter_guard *guard, double end)
{
    int is_last = 0, result = SOTER_GUARD_DONE;
    size_t length;

    while (result == SOTER_GUARD_DONE && !is_last) {
        if ((length = wait_line(guard, end)) == 0)
            return SOTER_GUARD_LOST;
        is_last = strcmp(guard->heard, "says all") == 0;
        if (begins(guard->heard, "says "))
            result = keep_said(guard, guard->heard);
        if (result == SOTER_GUARD_DONE)
            drop(guard, length);
    }
    return result;
}

/* Tells at which time the talk begins. */
static int tell_mark(soter_guard *guard, double end)
{
    char mark[40];
    int length;

    if (guard->options.first_time == 0)
        return tell_alone(guard, "%observed\n", strlen("%observed\n"), end);
    length = snprintf(mark, sizeof mark, "%%observed %lld\n", (long long)guard->options.first_time);
    return tell_alone(guard, mark, (size_t)length, end);
}

/* Tells the mission, and waits for `accepted` and all that is said of it. */
static int open_talk(soter_guard *guard)
{
    const soter_guard_options *options = &guard->options;
    double end = now() + options->opening_deadline;
    const char *text = options->mission;
    size_t length = options->mission_length;
    int result;

    if (start_program(guard) != 0)
        return lose(guard, "the program does not start");
    result = tell_alone(guard, text, length, end);
    if (result == SOTER_GUARD_DONE && length > 0 && text[length - 1] != '\n')
        result = tell_alone(guard, "\n", 1, end);
    if (result == SOTER_GUARD_DONE)
        result = tell_mark(guard, end);
    if (result != SOTER_GUARD_DONE || (length = wait_line(guard, end)) == 0)
        return SOTER_GUARD_LOST;
    if (strcmp(guard->heard, "accepted") != 0)
        return lose(guard, guard->heard);
    drop(guard, length);
    return hear_mission(guard, end);
}

soter_guard *soter_guard_open(const soter_guard_options *options)
{
    soter_guard *guard = (soter_guard *)calloc(1, sizeof *guard);

    if (guard == NULL) {
        options->fallback(options->user, "there is no memory");
        return NULL;
    }
    guard->options = *options;
    guard->process = guard->to = guard->from = -1;
    guard->time = options->first_time;
    guard->is_trusted = 1;
    if (open_talk(guard) != SOTER_GUARD_DONE) {
        free(guard->outline);
        free(guard);
        return NULL;
    }
    return guard;
}

/* --- the talk --------------------------------------------------------------------------------- */

int soter_guard_start(soter_guard *guard, const soter_guard_numbers *plant)
{
    int result = begin(guard, STARTS);

    if (result == SOTER_GUARD_DONE && (!is_name(plant->name) || !are_all(guard, "state", plant)))
        result = SOTER_GUARD_WRONG_USE;
    if (result == SOTER_GUARD_DONE)
        result = put(guard, "start");
    if (result == SOTER_GUARD_DONE)
        result = put_place(guard, plant);
    return result == SOTER_GUARD_DONE ? tell_line(guard) : result;
}

/* Once all plants were started the guard says that the talk begins, and who is due. */
static int wait_for_beginning(soter_guard *guard)
{
    double end = now() + guard->options.deadline;
    const char *nothing = "";
    size_t none = 0;
    int result = guard->is_lost ? SOTER_GUARD_LOST : hear_lines(guard);

    while (result == SOTER_GUARD_DONE && guard->due[0] == '\0') {
        result = exchange(guard, &nothing, &none, end);
        if (result == SOTER_GUARD_DONE)
            result = hear_lines(guard);
    }
    return result;
}

/* Behind the starts the first input, draft or `go` begins the instant. */
static int begin_instant(soter_guard *guard)
{
    int result = guard->turn == STARTS ? wait_for_beginning(guard) : SOTER_GUARD_DONE;

    if (result == SOTER_GUARD_DONE && guard->turn == STARTS)
        guard->turn = INSTANT;
    return result == SOTER_GUARD_DONE ? begin(guard, INSTANT) : result;
}

int soter_guard_input(soter_guard *guard, const soter_guard_numbers *topic)
{
    int result = begin_instant(guard);

    if (result == SOTER_GUARD_DONE && (!is_name(topic->name) || !are_all(guard, "input", topic)))
        result = SOTER_GUARD_WRONG_USE;
    if (result != SOTER_GUARD_DONE || (result = put(guard, "input ")) != SOTER_GUARD_DONE
        || (result = put(guard, topic->name)) != SOTER_GUARD_DONE || (result = put(guard, "=")) != SOTER_GUARD_DONE
        || (result = put_numbers(guard, topic)) != SOTER_GUARD_DONE)
        return result;
    return tell_line(guard);
}

int soter_guard_draft(soter_guard *guard, const soter_guard_numbers *node, const char *const *scalars)
{
    int result = begin_instant(guard);
    size_t i;

    if (result == SOTER_GUARD_DONE
        && (!is_name(node->name) || !is_external(guard, node->name) || !may_draft(guard, node, scalars)))
        result = SOTER_GUARD_WRONG_USE;
    if (result != SOTER_GUARD_DONE || (result = put(guard, "draft ")) != SOTER_GUARD_DONE
        || (result = put(guard, node->name)) != SOTER_GUARD_DONE)
        return result;
    for (i = 0; i < node->count; i++) {
        int64_t mantissa = 0;
        result = soter_guard_mantissa(node->values[i], node->decimals[i], &mantissa);
        if (result != SOTER_GUARD_DONE || (result = put(guard, " ")) != SOTER_GUARD_DONE
            || (result = put(guard, scalars[i])) != SOTER_GUARD_DONE || (result = put(guard, "=")) != SOTER_GUARD_DONE
            || (result = put_number(guard, mantissa)) != SOTER_GUARD_DONE)
            return result;
    }
    return tell_line(guard);
}

int soter_guard_draft_text(soter_guard *guard, const char *node, const char *text)
{
    int result = begin_instant(guard);
    size_t length, room;

    if (result == SOTER_GUARD_DONE && (!is_name(node) || !is_external(guard, node)))
        result = SOTER_GUARD_WRONG_USE;
    if (result != SOTER_GUARD_DONE || (result = put(guard, "draft ")) != SOTER_GUARD_DONE
        || (result = put(guard, node)) != SOTER_GUARD_DONE || (result = put(guard, " ")) != SOTER_GUARD_DONE)
        return result;
    room = LONGEST - guard->said_length;
    for (length = 0; length <= room && text[length] != '\0' && text[length] != '\n' && text[length] != '\r';)
        length++;
    if (length > room)
        for (length = room; length > 0 && text[length] != ' ';)
            length--;
    memcpy(guard->said + guard->said_length, text, length);
    guard->said_length += length;
    return tell_line(guard);
}

int soter_guard_resume(soter_guard *guard, int *is_trusted)
{
    double end = now() + guard->options.deadline;
    const char *nothing = "";
    size_t none = 0;
    int64_t before = guard->resumes;
    int result = begin_instant(guard);

    if (result == SOTER_GUARD_DONE)
        result = tell(guard, "resume\n", strlen("resume\n"), end);
    while (result == SOTER_GUARD_DONE && guard->resumes == before) {
        result = exchange(guard, &nothing, &none, end);
        if (result == SOTER_GUARD_DONE)
            result = hear_lines(guard);
    }
    *is_trusted = result == SOTER_GUARD_DONE && guard->is_trusted;
    return result;
}

/* The commands of the last instant are in force no more. */
static void forget(soter_guard *guard)
{
    guard->answer_length = 0;
    guard->answer[0] = '\0';
}

int soter_guard_go(soter_guard *guard, soter_guard_instant *instant)
{
    double end = now() + guard->options.deadline;
    const char *nothing = "";
    size_t none = 0;
    int result = begin_instant(guard);

    if (result == SOTER_GUARD_WRONG_USE)
        return result;
    forget(guard);
    if (result == SOTER_GUARD_DONE)
        result = tell(guard, "go\n", strlen("go\n"), end);
    while (result == SOTER_GUARD_DONE && !guard->is_ready) {
        result = exchange(guard, &nothing, &none, end);
        if (result == SOTER_GUARD_DONE)
            result = hear_lines(guard);
    }
    *instant = guard->instant;
    instant->time = guard->time;
    instant->is_trusted = guard->is_trusted;
    if (result != SOTER_GUARD_DONE) {
        forget(guard);
        return result;
    }
    memset(&guard->instant, 0, sizeof guard->instant);
    guard->is_ready = 0;
    guard->turn = TICK;
    return SOTER_GUARD_DONE;
}

/* A whole number of at most 64 bits at the front of a text; 0 where there is none. */
static int number_at(const char *text, int64_t *number)
{
    char *end;
    long long found;

    errno = 0;
    found = strtoll(text, &end, 10);
    *number = (int64_t)found;
    return errno == 0 && end != text && (*end == ' ' || *end == '\n');
}

int soter_guard_held(const soter_guard *guard, const char *plant, const char *scalar, int64_t *mantissa)
{
    const char *line = guard->answer;
    size_t plant_length = strlen(plant), scalar_length = strlen(scalar);

    while (!guard->is_lost && *line != '\0') {
        const char *end = strchr(line, '\n');
        const char *word = line + plant_length;
        if (strncmp(line, plant, plant_length) == 0)
            for (; word != NULL && word < end && *word == ' '; word = strpbrk(word + 1, " \n"))
                if (strncmp(word + 1, scalar, scalar_length) == 0 && word[1 + scalar_length] == '='
                    && number_at(word + 2 + scalar_length, mantissa))
                    return SOTER_GUARD_DONE;
        line = end + 1;
    }
    return SOTER_GUARD_WRONG_USE;
}

int soter_guard_is_due(soter_guard *guard, const char *node)
{
    size_t length = strlen(node);
    const char *word = guard->due;

    if (!is_name(node) || wait_for_beginning(guard) != SOTER_GUARD_DONE)
        return 0;
    for (; (word = strstr(word, node)) != NULL; word += length)
        if (word > guard->due && word[-1] == ' ' && word[length] == ' ')
            return 1;
    return 0;
}

int soter_guard_tick(soter_guard *guard, const soter_guard_numbers *plants, size_t count)
{
    int result = begin(guard, TICK), told;
    size_t i;

    if (result == SOTER_GUARD_DONE && !are_plants(guard, plants, count))
        result = SOTER_GUARD_WRONG_USE;
    if (result == SOTER_GUARD_DONE)
        result = put(guard, "tick");
    for (i = 0; result == SOTER_GUARD_DONE && i < count; i++)
        result = put_place(guard, &plants[i]);
    if (result != SOTER_GUARD_DONE && result != SOTER_GUARD_LEFT_OUT)
        return result;
    if (result == SOTER_GUARD_LEFT_OUT) {
        guard->said_length = 0;
        put(guard, "tick lost");
        result = SOTER_GUARD_UNSEEN;
    }
    guard->turn = INSTANT;
    guard->time++;
    told = tell_line(guard);
    return told == SOTER_GUARD_DONE ? result : told;
}

int64_t soter_guard_time(const soter_guard *guard)
{
    return guard->time;
}

const char *soter_guard_why(const soter_guard *guard)
{
    return guard->is_lost ? guard->why : NULL;
}

/* Hears all that is still said. */
static void hear_end(soter_guard *guard)
{
    double end = now() + guard->options.deadline, left;
    struct pollfd from;

    keep(guard, guard->heard, guard->heard_length);
    shutdown(guard->to, SHUT_WR);
    from.fd = guard->from;
    from.events = POLLIN;
    while ((left = end - now()) > 0) {
        ssize_t read_now;
        guard->heard_length = 0;
        if (poll(&from, 1, (int)(left * 1000) + 1) <= 0)
            continue;
        read_now = read(guard->from, guard->heard, ROOM);
        if (read_now == 0 || (read_now < 0 && errno != EAGAIN && errno != EINTR))
            break;
        if (read_now > 0)
            keep(guard, guard->heard, (size_t)read_now);
    }
}

/* The program has closed its output; it may need a moment to end. */
static int wait_end(soter_guard *guard)
{
    double end = now() + guard->options.deadline;
    struct timespec moment = {0, 1000000};
    int status = 0;

    while (now() < end) {
        if (waitpid(guard->process, &status, WNOHANG) == guard->process) {
            guard->process = -1;
            return WIFEXITED(status) ? WEXITSTATUS(status) : SOTER_GUARD_LOST;
        }
        nanosleep(&moment, NULL);
    }
    return SOTER_GUARD_LOST;
}

int soter_guard_close(soter_guard *guard)
{
    int status = SOTER_GUARD_LOST;

    if (guard == NULL)
        return SOTER_GUARD_LOST;
    if (!guard->is_lost) {
        hear_end(guard);
        status = wait_end(guard);
    }
    stop(guard);
    free(guard->outline);
    free(guard);
    return status;
}
