/* step PROGRAM WORDS..: how many instructions an x86-64 program executes once it has first read its
   standard input, to its end. What the program writes is thrown away. The processor's single steps are
   counted, by ptrace: no package is needed. Addresses are the same in every run where the system allows
   it, since a copy's steps depend a little on them, and the counts then repeat exactly. A string
   instruction counts once for each item it moves. */
#include <errno.h>
#include <stdio.h>
#include <stdlib.h>
#include <string.h>
#include <sys/personality.h>
#include <sys/ptrace.h>
#include <sys/syscall.h>
#include <sys/user.h>
#include <sys/wait.h>
#include <unistd.h>

static void die(const char *what)
{
    fprintf(stderr, "step: %s: %s\n", what, strerror(errno));
    exit(2);
}

int main(int argc, char **argv)
{
    if (argc < 2)
        return 2;
    pid_t child = fork();
    if (child < 0)
        die("fork");
    if (child == 0) {
        personality(ADDR_NO_RANDOMIZE);
        if (!freopen("/dev/null", "w", stdout))
            die("/dev/null");
        if (ptrace(PTRACE_TRACEME, 0, NULL, NULL) != 0)
            die("ptrace");
        execv(argv[1], argv + 1);
        die(argv[1]);
    }

    int status;
    long count = -1; /* below 0: not yet counting */
    for (;;) {
        if (waitpid(child, &status, 0) != child)
            die("waitpid");
        if (!WIFSTOPPED(status))
            break;
        int signal = WSTOPSIG(status) == SIGTRAP ? 0 : WSTOPSIG(status);
        if (count < 0) {
            struct user_regs_struct regs;
            if (ptrace(PTRACE_GETREGS, child, NULL, &regs) != 0)
                die("ptrace");
            if (regs.orig_rax == SYS_read && regs.rdi == 0 && (long)regs.rax != -ENOSYS)
                count = 0;
        } else {
            count++;
        }
        if (ptrace(count < 0 ? PTRACE_SYSCALL : PTRACE_SINGLESTEP, child, NULL, signal) != 0)
            die("ptrace");
    }
    if (count < 0 || !WIFEXITED(status) || WEXITSTATUS(status) != 0) {
        fprintf(stderr, "step: the program did not run to its end (status %d)\n", status);
        return 2;
    }
    printf("%ld\n", count);
    return 0;
}
