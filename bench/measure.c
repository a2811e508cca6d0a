// Runs commands in turn, TIMES times each, and until each has had TIMES tenths of a second of the processor.
// Their output is thrown away; each reads standard input, if that is a file, from its beginning. Prints of each
//   - user time in milliseconds: the least processor time, times the part of it that all runs had in user mode.
//     Linux knows the processor time of a run to the microsecond, but may part it by a look each 4 ms alone: the
//     least user time of short runs would be nothing, and a run without a look counts as user time alone;
//   - processor time, of user and system, in milliseconds: the least;
//   - the spread of processor time: the median over the least;
//   - the greatest resident set in KiB. This is C to be small: a child's resident set counts from that of its
//     parent. Each run has its memory at the same addresses: at others, more or fewer pages of the program and
//     its libraries are read with those that it asks for, a tenth of a small program.
// 11 times are enough on a computer that does nothing else. On one whose processors all had other work, the ratio of
// a program to itself came to 0.75 to 1.42 by 11 times, and to 0.99 to 1.01 by 41.
// Usage: measure TIMES COMMAND WORD.. [-- COMMAND WORD..]..
#include <fcntl.h>
#include <stdio.h>
#include <stdlib.h>
#include <string.h>
#include <sys/personality.h>
#include <sys/resource.h>
#include <sys/wait.h>
#include <unistd.h>

#define MOST_COMMANDS 4
#define MOST_RUNS 10000

struct command {
    char **words;
    double user;
    double both;
    double taken[MOST_RUNS];
    long greatest;
};

static double milliseconds(struct timeval time) {
    return (double)time.tv_sec * 1e3 + (double)time.tv_usec / 1e3;
}

static void become(char **words) {
    int null = open("/dev/null", O_WRONLY);
    dup2(null, 1);
    dup2(null, 2);
    personality(ADDR_NO_RANDOMIZE);
    execv(words[0], words);
    _exit(127);
}

// Runs a command once. It may refuse what it is given.
static void run(struct command *command, int round) {
    int status;
    struct rusage usage;
    lseek(0, 0, SEEK_SET);
    pid_t child = fork();
    if (child == 0) {
        become(command->words);
    }
    if (child < 0 || wait4(child, &status, 0, &usage) < 0 || !WIFEXITED(status) || WEXITSTATUS(status) > 125) {
        fprintf(stderr, "measure: %s failed\n", command->words[0]);
        exit(1);
    }
    double user = milliseconds(usage.ru_utime);
    command->taken[round] = user + milliseconds(usage.ru_stime);
    command->user += user;
    command->both += command->taken[round];
    if (usage.ru_maxrss > command->greatest) {
        command->greatest = usage.ru_maxrss;
    }
}

static int order(const void *one, const void *other) {
    double a = *(const double *)one, b = *(const double *)other;
    return (a > b) - (a < b);
}

static void print(struct command *command, int rounds) {
    qsort(command->taken, (size_t)rounds, sizeof(double), order);
    double least = command->taken[0], median = command->taken[rounds / 2];
    printf("%.3f %.3f ", least * command->user / command->both, least);
    printf("%.2f %ld\n", median / least, command->greatest);
}

int main(int count, char **words) {
    static struct command commands[MOST_COMMANDS];
    int times = count < 3 ? 0 : atoi(words[1]), many = 0;
    for (int at = 1; at < count; at++) {
        if (at == 1 || strcmp(words[at], "--") == 0) {
            words[at] = NULL;
            if (many == MOST_COMMANDS) {
                return 2;
            }
            commands[many++].words = words + at + 1;
        }
    }
    double least = 0;
    int round = 0;
    while (round < MOST_RUNS && (round < times || least < 100.0 * times)) {
        for (int at = 0; at < many; at++) {
            run(&commands[at], round);
            least = at == 0 || commands[at].both < least ? commands[at].both : least;
        }
        round++;
    }
    for (int at = 0; at < many && round > 0; at++) {
        print(&commands[at], round);
    }
    return round == 0;
}
