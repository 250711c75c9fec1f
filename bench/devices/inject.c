/* Runs a program and interferes with its reads or writes of one stream or file.
 *
 * inject TARGET ACTION [NUMBER] -- PROGRAM [WORD..]
 *
 * TARGET: 0 for the standard input, 1 for the standard output, 2 for the standard error, or the path of a file that is
 * read. ACTION: `count` does nothing. `error E` makes the call of the NUMBER fail with the errno E. `zero` makes it
 * return 0 without moving a byte. `one` lets every call move at most one byte. `interrupt` makes every other call fail
 * with EINTR. NUMBER counts from 1. The number of calls is written to the file that the variable INJECT_COUNT names.
 * The status is the program's, or 128 and the number of the signal that ended it. */
#define _GNU_SOURCE
#include <errno.h>
#include <fcntl.h>
#include <limits.h>
#include <signal.h>
#include <stdio.h>
#include <stdlib.h>
#include <string.h>
#include <sys/ptrace.h>
#include <sys/syscall.h>
#include <sys/user.h>
#include <sys/wait.h>
#include <unistd.h>

enum action { COUNT, ERROR, ZERO, ONE, INTERRUPT };

struct plan {
    const char *target;
    enum action action;
    long error, number;
};

static long calls;

/* Applies the plan to a call that a process is about to make. Returns the result of the call, or 1 to make it. */
static long answer_of(const struct plan *plan) {
    calls++;
    switch (plan->action) {
    case ERROR: return calls == plan->number ? -plan->error : 1;
    case ZERO: return calls == plan->number ? 0 : 1;
    case INTERRUPT: return calls % 2 == 1 ? -EINTR : 1;
    default: return 1;
    }
}

/* Returns whether the descriptor of a process is the target. */
static int is_target(const struct plan *plan, pid_t process, unsigned long descriptor) {
    char link[64], path[PATH_MAX];
    ssize_t length;
    if (plan->target[0] != '/') return descriptor == strtoul(plan->target, NULL, 10);
    snprintf(link, sizeof link, "/proc/%d/fd/%lu", process, descriptor);
    length = readlink(link, path, sizeof path - 1);
    if (length < 0) return 0;
    path[length] = 0;
    return strcmp(path, plan->target) == 0;
}

/* Returns whether the call moves bytes of the target. Another call than read and write that could do so ends all. */
static int moves(const struct plan *plan, pid_t process, const struct user_regs_struct *registers) {
    int writes = strcmp(plan->target, "1") == 0 || strcmp(plan->target, "2") == 0;
    switch (registers->orig_rax) {
    case SYS_read: return !writes && is_target(plan, process, registers->rdi);
    case SYS_write: return writes && is_target(plan, process, registers->rdi);
    case SYS_readv: case SYS_pread64: case SYS_preadv: case SYS_writev: case SYS_pwrite64: case SYS_pwritev: case SYS_sendfile:
    case SYS_splice: case SYS_copy_file_range: case SYS_io_uring_setup:
        if (is_target(plan, process, registers->rdi) || registers->orig_rax == SYS_io_uring_setup) {
            fprintf(stderr, "inject: call %llu is not known here\n", registers->orig_rax);
            exit(125);
        }
        return 0;
    default: return 0;
    }
}

/* Interferes with a call: `held` keeps the result from the call's beginning to its end. */
static void at_call(const struct plan *plan, pid_t process, int begins, long *held) {
    struct user_regs_struct registers;
    if (ptrace(PTRACE_GETREGS, process, NULL, &registers)) return;
    if (!begins) {
        if (*held == 1) return;
        registers.rax = (unsigned long long)*held;
        *held = 1;
        ptrace(PTRACE_SETREGS, process, NULL, &registers);
        return;
    }
    if (!moves(plan, process, &registers)) return;
    *held = answer_of(plan);
    if (*held != 1) registers.orig_rax = (unsigned long long)-1;
    else if (plan->action == ONE && registers.rdx > 1) registers.rdx = 1;
    ptrace(PTRACE_SETREGS, process, NULL, &registers);
}

/* Follows the process to its end. */
static int follow(const struct plan *plan, pid_t process) {
    int status, begins = 1;
    long held = 1;
    waitpid(process, &status, 0);
    ptrace(PTRACE_SETOPTIONS, process, NULL, PTRACE_O_TRACESYSGOOD | PTRACE_O_EXITKILL);
    for (int signal = 0;;) {
        if (ptrace(PTRACE_SYSCALL, process, NULL, (long)signal)) return 126;
        if (waitpid(process, &status, 0) < 0) return 126;
        if (WIFEXITED(status)) return WEXITSTATUS(status);
        if (WIFSIGNALED(status)) return 128 + WTERMSIG(status);
        signal = 0;
        if (WSTOPSIG(status) == (SIGTRAP | 0x80)) {
            at_call(plan, process, begins, &held);
            begins = !begins;
        } else if (WSTOPSIG(status) != SIGTRAP)
            signal = WSTOPSIG(status);
    }
}

/* Reads the plan from the words, and returns the number of words that it took. */
static int plan_of(char **words, struct plan *plan) {
    static const char *const ACTIONS[] = {"count", "error", "zero", "one", "interrupt"};
    int taken = 3;
    plan->target = words[1];
    while (plan->action < INTERRUPT && strcmp(words[2], ACTIONS[plan->action])) plan->action++;
    if (plan->action == ERROR) plan->error = strtol(words[taken++], NULL, 10);
    if (plan->action == ERROR || plan->action == ZERO) plan->number = strtol(words[taken++], NULL, 10);
    return taken;
}

int main(int count, char **words) {
    struct plan plan = {NULL, COUNT, 0, 0};
    const char *path = getenv("INJECT_COUNT");
    int taken, status;
    pid_t process;
    if (count < 5) return 124;
    taken = plan_of(words, &plan);
    if (strcmp(words[taken], "--")) return 124;
    process = fork();
    if (process == 0) {
        ptrace(PTRACE_TRACEME, 0, NULL, NULL);
        execv(words[taken + 1], words + taken + 1);
        _exit(123);
    }
    signal(SIGPIPE, SIG_IGN);
    status = follow(&plan, process);
    if (path) {
        FILE *file = fopen(path, "w");
        if (file) {
            fprintf(file, "%ld\n", calls);
            fclose(file);
        }
    }
    return status;
}
