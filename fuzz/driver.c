/*
 * Drives the fuzzer without libFuzzer: cases of random bytes, from a seed, or one case from a file.
 *
 *     driver [--seed N] [--count N] [--keep FILE]
 *     driver --case FILE
 *
 * A finding ends it with status 1. The case's bytes are then printed as hexadecimal digits, and written to the file
 * that --keep names; --case takes such a file, or one of bytes, as libFuzzer writes it. At the end it prints how many
 * cases met each answer; if an answer was met by none, and there were enough cases, that is status 1 too.
 */
#define _GNU_SOURCE
#include <ctype.h>
#include <fcntl.h>
#include <inttypes.h>
#include <signal.h>
#include <stdio.h>
#include <stdlib.h>
#include <string.h>
#include <unistd.h>

#include "fuzz.h"

#if defined __has_include
#if __has_include(<valgrind/valgrind.h>)
#include <valgrind/valgrind.h>
#endif
#endif
#ifndef VALGRIND_COUNT_ERRORS
#define VALGRIND_COUNT_ERRORS 0
#endif

/* So many seconds from one look to the next; a case that is the same at two looks does not return. */
#ifndef PATIENCE
#define PATIENCE 20
#endif

enum { CASE_BYTES = 256, LARGEST_CASE = 4096, ENOUGH = 10000 };

static uint8_t bytes[LARGEST_CASE];
static size_t length;
static volatile uint64_t done;
static const char *kept;

/* ---- findings; what is called here may be called while a signal is handled */

static void put(int file, const char *text, size_t size)
{
    while (size > 0) {
        ssize_t written = write(file, text, size);

        if (written <= 0) {
            return;
        }
        text += written;
        size -= (size_t)written;
    }
}

static void put_case(int file)
{
    static const char digits[] = "0123456789abcdef";
    char line[65];
    size_t i;
    size_t n = 0;

    for (i = 0; i < length; i++) {
        line[n++] = digits[bytes[i] >> 4];
        line[n++] = digits[bytes[i] & 15];
        if (n == 64 || i + 1 == length) {
            line[n++] = '\n';
            put(file, line, n);
            n = 0;
        }
    }
}

static void say(const char *text)
{
    put(STDERR_FILENO, text, strlen(text));
}

static void end_with_case(const char *what)
{
    int file;

    say(what);
    say("\nthe case:\n");
    put_case(STDERR_FILENO);
    if (kept != NULL) {
        file = open(kept, O_WRONLY | O_CREAT | O_TRUNC, 0644);
        if (file >= 0) {
            put_case(file);
            close(file);
            say("it is kept in ");
            say(kept);
            say("\n");
        }
    }
    _exit(1);
}

static void on_signal(int number)
{
    static uint64_t last = UINT64_MAX;

    if (number == SIGALRM && done != last) {
        last = done;
        alarm(PATIENCE);
        return;
    }
    end_with_case(number == SIGALRM   ? "finding: the call does not return"
                  : number == SIGABRT ? "aborted"
                                      : "finding: memory that is not the call's was touched, or worse");
}

static void handle_signals(void)
{
    static const int numbers[] = {SIGALRM, SIGABRT, SIGSEGV, SIGBUS, SIGILL, SIGFPE};
    struct sigaction action;
    size_t i;

    memset(&action, 0, sizeof action);
    action.sa_handler = on_signal;
    for (i = 0; i < sizeof numbers / sizeof numbers[0]; i++) {
        sigaction(numbers[i], &action, NULL);
    }
    alarm(PATIENCE);
}

static void run_case(void)
{
    LLVMFuzzerTestOneInput(bytes, length);
    if (VALGRIND_COUNT_ERRORS != 0) {
        end_with_case("finding: valgrind has reported an error");
    }
    done++;
}

/* ---- random cases */

static uint64_t mixed(uint64_t z)
{
    z = (z ^ z >> 30) * 0xbf58476d1ce4e5b9u;
    z = (z ^ z >> 27) * 0x94d049bb133111ebu;
    return z ^ z >> 31;
}

static void run_random(uint64_t seed, uint64_t count)
{
    uint64_t state = mixed(seed);
    uint64_t word;
    uint64_t i;
    size_t place;

    length = CASE_BYTES;
    for (i = 0; i < count; i++) {
        for (place = 0; place < length; place += sizeof word) {
            state += 0x9e3779b97f4a7c15u;
            word = mixed(state);
            memcpy(bytes + place, &word, sizeof word);
        }
        run_case();
    }
}

/* ---- a case from a file */

static int digit(int letter)
{
    return letter <= '9' ? letter - '0' : tolower(letter) - 'a' + 10;
}

static void read_case(const char *path)
{
    FILE *file = fopen(path, "rb");
    size_t size;
    size_t i;
    size_t n = 0;

    if (file == NULL) {
        perror(path);
        exit(2);
    }
    size = fread(bytes, 1, sizeof bytes, file);
    fclose(file);
    length = size;
    for (i = 0; i < size; i++) {
        if (!isxdigit(bytes[i]) && !isspace(bytes[i])) {
            return; /* bytes, and no digits */
        }
    }
    for (i = 0; i < size; i++) {
        if (isxdigit(bytes[i])) {
            /* the place is never before the digit's */
            bytes[n / 2] = (uint8_t)(n % 2 == 0 ? digit(bytes[i]) << 4 : bytes[n / 2] | digit(bytes[i]));
            n++;
        }
    }
    length = n / 2;
}

/* ---- what was met */

static int print_answers(void)
{
    int gaps = 0;
    int call;
    uint32_t number;

    printf("cases by answer  %12s %12s %12s %12s\n", call_names[0], call_names[1], call_names[2], call_names[3]);
    for (number = 0; number <= LAST_NUMBER; number++) {
        int any = 0;

        for (call = 0; call < CALLS; call++) {
            any |= possible((enum call)call, number);
        }
        if (!any) {
            continue;
        }
        printf("  %2u%13s", (unsigned)number, number == 0 ? "accepted " : "");
        for (call = 0; call < CALLS; call++) {
            if (possible((enum call)call, number)) {
                printf(" %12" PRIu64, met.answers[call][number]);
                gaps += met.answers[call][number] == 0;
            } else {
                printf(" %12s", "");
            }
        }
        printf("\n");
    }
    return gaps;
}

static int print_row(const char *name, uint64_t frame, uint64_t field)
{
    printf("  %-40s %12" PRIu64 " %12" PRIu64 "\n", name, frame, field);
    return (frame == 0) + (field == 0);
}

static int print_accepted(void)
{
    static const char *const formats[] = {"4:2:0", "4:2:2", "4:4:4"};
    static const char *const directions[2][2] = {{"no motion", "backward"}, {"forward", "both directions"}};
    static const char *const places[] = {
        "luminance without samples", "inside the plane", "across an edge", "outside the plane"};
    int gaps = 0;
    int i;
    int j;

    printf("accepted macroblocks\n");
    for (i = 0; i < 3; i++) {
        gaps += print_row(formats[i], met.formats[FRAME][i], met.formats[FIELD][i]);
    }
    for (i = 0; i < 2; i++) {
        for (j = 0; j < 2; j++) {
            gaps += print_row(directions[i][j], met.directions[FRAME][i][j], met.directions[FIELD][i][j]);
        }
    }
    for (i = 0; i < PLACE_KINDS; i++) {
        gaps += print_row(places[i], met.places[FRAME][i], met.places[FIELD][i]);
    }
    return gaps;
}

int main(int count_of_arguments, char **arguments)
{
    uint64_t seed = 1;
    uint64_t count = 1000000;
    const char *path = NULL;
    int gaps;
    int i;

    for (i = 1; i + 1 < count_of_arguments; i += 2) {
        if (strcmp(arguments[i], "--seed") == 0) {
            seed = strtoull(arguments[i + 1], NULL, 10);
        } else if (strcmp(arguments[i], "--count") == 0) {
            count = strtoull(arguments[i + 1], NULL, 10);
        } else if (strcmp(arguments[i], "--keep") == 0) {
            kept = arguments[i + 1];
        } else if (strcmp(arguments[i], "--case") == 0) {
            path = arguments[i + 1];
        } else {
            break;
        }
    }
    if (i != count_of_arguments) {
        fprintf(stderr, "usage: driver [--seed N] [--count N] [--keep FILE]\n       driver --case FILE\n");
        return 2;
    }
    handle_signals();
    if (path != NULL) {
        struct a_case c;

        read_case(path);
        draw_case(&c, bytes, length);
        describe_case(&c);
        run_case();
        printf("no finding\n");
        return 0;
    }
    run_random(seed, count);
    gaps = print_answers() + print_accepted();
    if (gaps > 0) {
        printf("%d of these were met by no case\n", gaps);
    }
    printf("seed %" PRIu64 ", %" PRIu64 " cases, %" PRIu64 " calls, checksum %016" PRIx64 ": no finding\n", seed, count,
           met.calls, met.checksum);
    return gaps > 0 && count >= ENOUGH;
}
