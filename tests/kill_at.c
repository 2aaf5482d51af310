/*
 * Runs a command and troubles it at one of its system calls.
 *
 *     kill_at kill N COMMAND..            kills it at the N-th stop: calls stop as they begin and as they end
 *     kill_at beside N ACTION COMMAND..   has the shell do something at the N-th stop
 *     kill_at fail CALL N ERROR COMMAND.. makes its N-th call of this kind fail; all of them where N is all
 *
 * The exit status is the command's own, or 137 where it was killed; 99 where it came to its end untroubled; 98 where the system
 * does not let it be traced.
 */
#define _GNU_SOURCE
#include <errno.h>
#include <signal.h>
#include <stdio.h>
#include <stdlib.h>
#include <string.h>
#include <sys/ptrace.h>
#include <sys/syscall.h>
#include <sys/user.h>
#include <sys/wait.h>
#include <unistd.h>

enum { UNTROUBLED = 99, NOT_TRACED = 98 };

static const struct {
    const char *name;
    long number;
} calls[] = {
    {"write", SYS_write}, {"pwrite", SYS_pwrite64}, {"read", SYS_read}, {"lseek", SYS_lseek}, {"fsync", SYS_fsync},
    {"ftruncate", SYS_ftruncate}, {"rename", SYS_rename}, {"renameat", SYS_renameat}, {"openat", SYS_openat}, {"unlinkat", SYS_unlinkat},
    {"fchmod", SYS_fchmod}, {"fchown", SYS_fchown}, {"close", SYS_close}, {"flock", SYS_flock}, {"mmap", SYS_mmap},
    {"fstat", SYS_newfstatat}, {"pread", SYS_pread64}, {"copy", SYS_copy_file_range}, {"fallocate", SYS_fallocate},
    {"madvise", SYS_madvise}, {"fadvise", SYS_fadvise64}, {"sync", SYS_sync_file_range},
};

/* What is to happen, and how far the command has come. */
struct trouble {
    int kills;
    const char *action; /* that the shell does instead */
    int all;      /* calls of the kind fail */
    long call;    /* to fail */
    long error;
    long left;    /* stops to kill at, or calls to fail, before the one that is meant */
    int inside;   /* a call has begun and not ended */
    int failing;  /* the one that has begun */
};

static int give_up(const char *what) {
    fprintf(stderr, "kill_at: %s: %s\n", what, strerror(errno));
    exit(NOT_TRACED);
}

static long number_of(const char *name) {
    for (size_t i = 0; i < sizeof calls / sizeof *calls; i++)
        if (strcmp(calls[i].name, name) == 0)
            return calls[i].number;
    errno = EINVAL;
    return give_up(name);
}

static pid_t start(char **command) {
    pid_t child = fork();
    if (child < 0)
        give_up("fork");
    if (child > 0)
        return child;
    if (ptrace(PTRACE_TRACEME, 0, NULL, NULL) != 0)
        _exit(NOT_TRACED);
    raise(SIGSTOP);
    execvp(command[0], command);
    _exit(127);
}

/* A call that begins to fail is made no call at all, and gets its answer as it ends. */
static void fail_call(pid_t child, struct trouble *trouble) {
    struct user_regs_struct registers;
    if (ptrace(PTRACE_GETREGS, child, NULL, &registers) != 0)
        give_up("registers");
    if (trouble->inside && (long)registers.orig_rax == trouble->call && (--trouble->left == 0 || trouble->all)) {
        trouble->failing = 1;
        registers.orig_rax = (unsigned long long)-1;
    } else if (!trouble->inside && trouble->failing) {
        trouble->failing = 0;
        registers.rax = (unsigned long long)-trouble->error;
    }
    if (ptrace(PTRACE_SETREGS, child, NULL, &registers) != 0)
        give_up("registers");
}

static void at_stop(pid_t child, struct trouble *trouble) {
    trouble->inside = !trouble->inside;
    if (!trouble->kills)
        fail_call(child, trouble);
    else if (--trouble->left == 0 && trouble->action == NULL)
        kill(child, SIGKILL);
    else if (trouble->left == 0 && system(trouble->action) != 0)
        give_up(trouble->action);
}

static int end_of(int status, const struct trouble *trouble) {
    if (WIFEXITED(status) && trouble->left > 0 && WEXITSTATUS(status) != NOT_TRACED)
        return UNTROUBLED;
    return WIFEXITED(status) ? WEXITSTATUS(status) : 128 + WTERMSIG(status);
}

static int follow(pid_t child, struct trouble *trouble) {
    int status, signal = 0;
    if (waitpid(child, &status, 0) != child || !WIFSTOPPED(status)
        || ptrace(PTRACE_SETOPTIONS, child, NULL, (void *)(PTRACE_O_TRACESYSGOOD | PTRACE_O_EXITKILL)) != 0)
        give_up("trace");
    for (;;) {
        if (ptrace(PTRACE_SYSCALL, child, NULL, (void *)(long)signal) != 0 && errno != ESRCH)
            give_up("trace");
        if (waitpid(child, &status, 0) != child)
            give_up("wait");
        if (!WIFSTOPPED(status))
            return end_of(status, trouble);
        signal = WSTOPSIG(status) & 0x7F;
        if (WSTOPSIG(status) == (SIGTRAP | 0x80))
            at_stop(child, trouble);
        if (signal == SIGTRAP || signal == SIGSTOP)
            signal = 0;
    }
}

int main(int argc, char **argv) {
    struct trouble trouble = {0};
    if (argc > 3 && strcmp(argv[1], "kill") == 0) {
        trouble.kills = 1;
        trouble.left = atol(argv[2]);
        return follow(start(argv + 3), &trouble);
    }
    if (argc > 4 && strcmp(argv[1], "beside") == 0) {
        trouble.kills = 1;
        trouble.left = atol(argv[2]);
        trouble.action = argv[3];
        return follow(start(argv + 4), &trouble);
    }
    if (argc > 5 && strcmp(argv[1], "fail") == 0) {
        trouble.call = number_of(argv[2]);
        trouble.all = strcmp(argv[3], "all") == 0;
        trouble.left = trouble.all ? 1 : atol(argv[3]);
        trouble.error = strcmp(argv[4], "ENOSPC") == 0 ? ENOSPC : EIO;
        return follow(start(argv + 5), &trouble);
    }
    fprintf(stderr, "usage: kill_at kill N COMMAND.., kill_at beside N ACTION COMMAND.., kill_at fail CALL N EIO|ENOSPC COMMAND..\n");
    return NOT_TRACED;
}
