/* Runs a program, and writes the greatest memory that it has had (resident, in KiB) to standard error. Its caller is too
   large to do so itself: what a process had before it became the program counts. */
#include <stdio.h>
#include <sys/resource.h>
#include <sys/wait.h>
#include <unistd.h>

int main(int count, char **words) {
    struct rusage used;
    int status;
    pid_t child = count > 1 ? fork() : -1;
    if (child == 0) {
        execv(words[1], words + 1);
        _exit(127);
    }
    if (child < 0 || wait4(child, &status, 0, &used) != child || status != 0) return 1;
    fprintf(stderr, "%ld\n", used.ru_maxrss);
    return 0;
}
