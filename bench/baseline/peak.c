/* peak REPORT COMMAND..: runs the command, then writes its peak memory in KB, its seconds, its processor seconds, those of them in
   user mode and its wait status into the file REPORT. The system never reports a child's peak as less than its parent's: so the parent has to be as small as this. */
#include <signal.h>
#include <stdio.h>
#include <sys/prctl.h>
#include <sys/resource.h>
#include <sys/wait.h>
#include <time.h>
#include <unistd.h>

int main(int count, char **words) {
    struct timespec from, to;
    struct rusage used;
    int status;
    if (count < 3) return 2;
    clock_gettime(CLOCK_MONOTONIC, &from);
    pid_t child = fork();
    if (child == 0) {
        prctl(PR_SET_PDEATHSIG, SIGKILL);
        execv(words[2], words + 2);
        _exit(127);
    }
    if (child < 0 || wait4(child, &status, 0, &used) < 0) return 1;
    clock_gettime(CLOCK_MONOTONIC, &to);
    FILE *report = fopen(words[1], "w");
    if (!report) return 1;
    double seconds = to.tv_sec - from.tv_sec + (to.tv_nsec - from.tv_nsec) / 1e9;
    double user = used.ru_utime.tv_sec + used.ru_utime.tv_usec / 1e6;
    double processor = user + used.ru_stime.tv_sec + used.ru_stime.tv_usec / 1e6;
    fprintf(report, "%ld %.6f %.6f %.6f %d\n", used.ru_maxrss, seconds, processor, user, status);
    return fclose(report) != 0;
}
