/* Talks with a program that answers lines, and times it; bench/session.py says what for.

   talk whole|lines INPUT ANSWERS WORDS..   starts the program with these words; prints its wall time, its processor
                                            time and this one's own, in seconds, and its status
   talk echo                                a program that answers each line with `ok`, and does no more

   whole: the program reads INPUT itself. lines: each line of INPUT, which byte 10 ends, is written when the whole line
   that answers the one before it has come. What the program writes goes to ANSWERS. */
#define _GNU_SOURCE
#include <fcntl.h>
#include <stdio.h>
#include <stdlib.h>
#include <string.h>
#include <sys/mman.h>
#include <sys/resource.h>
#include <sys/stat.h>
#include <sys/wait.h>
#include <time.h>
#include <unistd.h>

enum { PIECE = 1 << 16 };

static void fail(const char *what) {
    perror(what);
    exit(1);
}

static void write_all(int to, const char *bytes, size_t count) {
    while (count > 0) {
        ssize_t n = write(to, bytes, count);
        if (n < 0) fail("write");
        bytes += n;
        count -= (size_t)n;
    }
}

static int echo(void) {
    static char piece[PIECE];
    ssize_t n;
    while ((n = read(0, piece, sizeof piece)) > 0)
        for (ssize_t i = 0; i < n; i++)
            if (piece[i] == '\n') write_all(1, "ok\n", 3);
    return n < 0;
}

/* The program with its input and output. */
static pid_t start(char **words, int input, int output, int kept) {
    pid_t child = fork();
    if (child < 0) fail("fork");
    if (child == 0) {
        dup2(input, 0);
        dup2(output, 1);
        close(input);
        close(output);
        if (kept >= 0) close(kept);
        execv(words[0], words);
        _exit(127);
    }
    return child;
}

/* Reads from the program until a line has come, or its end; says whether one has. */
static int take_line(int from, int answers) {
    static char piece[PIECE];
    for (;;) {
        ssize_t n = read(from, piece, sizeof piece);
        if (n < 0) fail("read");
        if (n == 0) return 0;
        write_all(answers, piece, (size_t)n);
        if (piece[n - 1] == '\n') return 1;
    }
}

static void send_lines(const char *input, int answers, int to, int from) {
    int file = open(input, O_RDONLY);
    struct stat about;
    if (file < 0 || fstat(file, &about) != 0) fail(input);
    char *text = mmap(NULL, (size_t)about.st_size, PROT_READ, MAP_PRIVATE | MAP_POPULATE, file, 0);
    if (text == MAP_FAILED) fail("mmap");
    char *end = text + about.st_size;
    for (char *line = text; line < end;) {
        char *stop = memchr(line, '\n', (size_t)(end - line));
        char *next = stop ? stop + 1 : end;
        write_all(to, line, (size_t)(next - line));
        if (!take_line(from, answers)) exit(3);
        line = next;
    }
    close(to);
    while (take_line(from, answers)) {}
}

static double seconds(struct timeval t) {
    return (double)t.tv_sec + (double)t.tv_usec / 1e6;
}

int main(int count, char **words) {
    if (count == 2 && strcmp(words[1], "echo") == 0) return echo();
    if (count < 5) return 2;
    int answers = open(words[3], O_WRONLY | O_CREAT | O_TRUNC, 0644);
    if (answers < 0) fail(words[3]);
    struct timespec begun, ended;
    clock_gettime(CLOCK_MONOTONIC, &begun);
    pid_t child;
    if (strcmp(words[1], "whole") == 0) {
        int input = open(words[2], O_RDONLY);
        if (input < 0) fail(words[2]);
        child = start(words + 4, input, answers, -1);
    } else {
        int there[2], back[2];
        if (pipe2(there, O_CLOEXEC) != 0 || pipe2(back, O_CLOEXEC) != 0) fail("pipe");
        child = start(words + 4, there[0], back[1], there[1]);
        close(there[0]);
        close(back[1]);
        send_lines(words[2], answers, there[1], back[0]);
    }
    int status;
    struct rusage theirs, ours;
    if (wait4(child, &status, 0, &theirs) < 0) fail("wait");
    clock_gettime(CLOCK_MONOTONIC, &ended);
    getrusage(RUSAGE_SELF, &ours);
    printf("%.6f %.6f %.6f %d\n", (double)(ended.tv_sec - begun.tv_sec) + (double)(ended.tv_nsec - begun.tv_nsec) / 1e9,
           seconds(theirs.ru_utime) + seconds(theirs.ru_stime), seconds(ours.ru_utime) + seconds(ours.ru_stime),
           WIFEXITED(status) ? WEXITSTATUS(status) : 128 + WTERMSIG(status));
    return 0;
}
