/* measure REPORT SECONDS BYTES PROGRAM WORDS..: runs a program within limits of processor time and address space, and writes its user
   and system seconds, its peak memory in KB and its status (below 0 where a signal ended it) to REPORT. A program of its own, since
   the peak of a process begins with that of the one that started it. */
#include <stdio.h>
#include <stdlib.h>
#include <sys/resource.h>
#include <sys/wait.h>
#include <unistd.h>

static void limit(int what, const char *most) {
    struct rlimit both;
    both.rlim_cur = both.rlim_max = strtoull(most, NULL, 10);
    setrlimit(what, &both);
}

int main(int count, char **words) {
    struct rusage used;
    int status;
    FILE *report;
    pid_t child;
    if (count < 5) return 2;
    child = fork();
    if (child < 0) return 1;
    if (child == 0) {
        limit(RLIMIT_CPU, words[2]);
        limit(RLIMIT_AS, words[3]);
        execv(words[4], words + 4);
        _exit(127);
    }
    if (wait4(child, &status, 0, &used) != child || !(report = fopen(words[1], "w"))) return 1;
    fprintf(report, "%.6f %ld %d\n",
        used.ru_utime.tv_sec + used.ru_stime.tv_sec + (used.ru_utime.tv_usec + used.ru_stime.tv_usec) / 1e6, used.ru_maxrss,
        WIFSIGNALED(status) ? -WTERMSIG(status) : WEXITSTATUS(status));
    return fclose(report) ? 1 : 0;
}
