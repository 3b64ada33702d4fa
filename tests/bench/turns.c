// turns RUNS INPUT PROGRAM..: runs the programs in turns, each RUNS times, with INPUT as standard input and their output thrown away; prints the least processor time of each, in nanoseconds.
// User and system time together: what a program costs whatever else the machine does. Many kernels tell the two apart by samples alone.
#include <fcntl.h>
#include <stdio.h>
#include <stdlib.h>
#include <sys/resource.h>
#include <sys/wait.h>
#include <unistd.h>

static long long nanoseconds(struct timeval t) { return t.tv_sec * 1000000000LL + t.tv_usec * 1000LL; }

static void become(const char *program, const char *input) {
    int in = open(input, O_RDONLY), out = open("/dev/null", O_WRONLY);
    if (in < 0 || out < 0 || dup2(in, 0) < 0 || dup2(out, 1) < 0) _exit(126);
    execl(program, program, (char *)0);
    _exit(127);
}

// What one run takes, or -1 if it fails.
static long long time_of(const char *program, const char *input) {
    struct rusage used;
    int status;
    pid_t child = fork();
    if (child == 0) become(program, input);
    if (child < 0 || wait4(child, &status, 0, &used) != child || status != 0) return -1;
    return nanoseconds(used.ru_utime) + nanoseconds(used.ru_stime);
}

int main(int count, char **words) {
    if (count < 4) return 2;
    int runs = atoi(words[1]);
    long long least[count];
    for (int run = 0; run < runs; run++)
        for (int i = 3; i < count; i++) {
            long long time = time_of(words[i], words[2]);
            if (time < 0) {
                fprintf(stderr, "turns: %s failed on %s\n", words[i], words[2]);
                return 1;
            }
            if (run == 0 || time < least[i]) least[i] = time;
        }
    for (int i = 3; i < count && runs > 0; i++) printf("%lld\n", least[i]);
    return 0;
}
