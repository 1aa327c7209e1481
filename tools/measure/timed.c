/* Takes the times of a program: `measure.sh` and `measure_openings.py` here compile and call it.

   timed ask PID LINES ANSWERS BYTES   writes the file LINES to the descriptor 3, from which the process PID has its
                                       input, and waits until the file ANSWERS has so many bytes
   timed run PROGRAM WORDS ..          runs a program that has an empty input and nowhere to write
   timed lines FILE PROGRAM WORDS ..   runs a program, and gives it one line of FILE after another, each once the one
                                       before it has a line of answer

   It prints the nanoseconds that this took, those of them in which the process had a processor, and of a run the
   greatest memory that it had, in units of 1,024 bytes. For lines it prints the nanoseconds until each answer, for the
   first one from the start of the program on, with the answer behind it; then the time from the end of the input to the
   end of the program, the processor's time of all of it, and the greatest memory. */
#define _GNU_SOURCE
#include <fcntl.h>
#include <stdint.h>
#include <stdio.h>
#include <stdlib.h>
#include <sys/resource.h>
#include <sys/stat.h>
#include <sys/wait.h>
#include <time.h>
#include <unistd.h>

enum { INPUT = 3, SECOND = 1000000000, PATIENCE = 300 };

static void fail(const char *what)
{
    perror(what);
    exit(1);
}

static int64_t now(void)
{
    struct timespec time;
    clock_gettime(CLOCK_MONOTONIC, &time);
    return (int64_t)time.tv_sec * SECOND + time.tv_nsec;
}

/* The nanoseconds in which a process has had a processor so far. */
static int64_t worked(const char *pid)
{
    char name[64];
    long long found;
    snprintf(name, sizeof name, "/proc/%s/schedstat", pid);
    FILE *file = fopen(name, "r");
    if (!file || fscanf(file, "%lld", &found) != 1)
        fail(name);
    fclose(file);
    return found;
}

static size_t size_of(int file)
{
    struct stat it;
    if (fstat(file, &it) != 0)
        fail("fstat");
    return (size_t)it.st_size;
}

static int open_file(const char *name)
{
    int file = open(name, O_RDONLY);
    if (file < 0)
        fail(name);
    return file;
}

/* Waits until a file has so many bytes, and looks often. */
static void await(int file, size_t bytes, const char *pid)
{
    struct timespec moment = {0, 20000};
    int64_t begun = now();
    while (size_of(file) < bytes) {
        nanosleep(&moment, NULL);
        if (now() - begun > (int64_t)PATIENCE * SECOND) {
            fprintf(stderr, "process %s has not answered\n", pid);
            exit(1);
        }
    }
}

static void ask(const char *pid, const char *lines, const char *answers, size_t bytes)
{
    int from = open_file(lines), to = open_file(answers);
    size_t size = size_of(from);
    char *text = malloc(size);
    if (!text || read(from, text, size) != (ssize_t)size)
        fail(lines);
    int64_t before = worked(pid), begun = now();
    for (size_t done = 0; done < size;) {
        ssize_t count = write(INPUT, text + done, size - done);
        if (count < 0)
            fail("write");
        done += (size_t)count;
    }
    await(to, bytes, pid);
    int64_t took = now() - begun;
    printf("%lld %lld\n", (long long)took, (long long)(worked(pid) - before));
}

static int64_t nanoseconds(struct timeval time)
{
    return (int64_t)time.tv_sec * SECOND + time.tv_usec * 1000;
}

/* Prints the time of a program that has ended, or that it took to end, and what it used. */
static void print_end(int64_t took, const struct rusage *used)
{
    printf("%lld %lld %ld\n", (long long)took, (long long)(nanoseconds(used->ru_utime) + nanoseconds(used->ru_stime)),
        used->ru_maxrss);
}

static void run(char **words)
{
    struct rusage used;
    int status;
    int64_t begun = now();
    pid_t child = fork();
    if (child == 0) {
        if (!freopen("/dev/null", "r", stdin) || !freopen("/dev/null", "w", stdout))
            _exit(127);
        execvp(words[0], words);
        _exit(127);
    }
    if (child < 0 || wait4(child, &status, 0, &used) != child || status != 0)
        fail(words[0]);
    print_end(now() - begun, &used);
}

/* Starts a program, with pipes as its input and output. */
static pid_t start(char **words, FILE **into, FILE **out_of)
{
    int input[2], output[2];
    if (pipe2(input, O_CLOEXEC) != 0 || pipe2(output, O_CLOEXEC) != 0)
        fail("pipe");
    pid_t child = vfork();
    if (child == 0) {
        if (dup2(input[0], 0) < 0 || dup2(output[1], 1) < 0)
            _exit(127);
        execvp(words[0], words);
        _exit(127);
    }
    close(input[0]);
    close(output[1]);
    *into = fdopen(input[1], "w");
    *out_of = fdopen(output[0], "r");
    if (child < 0 || !*into || !*out_of)
        fail(words[0]);
    return child;
}

static void lines(const char *name, char **words)
{
    static char line[1 << 16], answer[1 << 16];
    FILE *from = fopen(name, "r"), *into, *out_of;
    struct rusage used;
    int status;
    if (!from)
        fail(name);
    int64_t begun = now();
    pid_t child = start(words, &into, &out_of);
    while (fgets(line, sizeof line, from)) {
        if (fputs(line, into) < 0 || fflush(into) != 0 || !fgets(answer, sizeof answer, out_of))
            fail(line);
        printf("%lld %s", (long long)(now() - begun), answer);
        begun = now();
    }
    fclose(into);
    if (wait4(child, &status, 0, &used) != child || status != 0)
        fail(words[0]);
    print_end(now() - begun, &used);
}

int main(int count, char **words)
{
    if (count == 6 && words[1][0] == 'a') {
        ask(words[2], words[3], words[4], strtoull(words[5], NULL, 10));
    } else if (count > 2 && words[1][0] == 'r') {
        run(words + 2);
    } else if (count > 3 && words[1][0] == 'l') {
        lines(words[2], words + 3);
    } else {
        fprintf(stderr, "usage: timed ask PID LINES ANSWERS BYTES | timed run PROGRAM WORDS .. | "
                        "timed lines FILE PROGRAM WORDS ..\n");
        return 2;
    }
    return 0;
}
