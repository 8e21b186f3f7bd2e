/* The checksum at every length: how many instructions the sum by rounds takes and how many the one a byte at a time, the export itself
 * included. Each call is stepped through by ptrace, an instruction at a time. Prints the lengths at which the rounds take more, and a few
 * others. Exit status 1 if they take more anywhere from 8 bytes on, or if the sums differ. */
#define _GNU_SOURCE

#include <signal.h>
#include <stdint.h>
#include <stdio.h>
#include <stdlib.h>
#include <sys/ptrace.h>
#include <sys/user.h>
#include <sys/wait.h>
#include <unistd.h>

#define ROUND 8
#define EACH_TO 600
#define BODY 65535
#define TRAP 0xccL

uint8_t words_checksum(const uint8_t *bytes, size_t n);
uint8_t words_checksum_each(const uint8_t *bytes, size_t n);

typedef uint8_t (*checksum)(const uint8_t *, size_t);

static uint8_t body[BODY];
static volatile uint8_t result;

static void fail(const char *what)
{
    perror(what);
    exit(2);
}

/* The child, stopped at the first instruction of its call. */
static pid_t stopped_in(checksum sum, size_t n, struct user_regs_struct *registers)
{
    pid_t child = fork();

    if (child < 0)
        fail("fork");
    if (child == 0) {
        ptrace(PTRACE_TRACEME, 0, 0, 0);
        raise(SIGSTOP);
        result = sum(body, n);
        _exit(0);
    }
    waitpid(child, 0, 0);
    long code = ptrace(PTRACE_PEEKTEXT, child, sum, 0);
    ptrace(PTRACE_POKETEXT, child, sum, (code & ~0xffL) | TRAP);
    ptrace(PTRACE_CONT, child, 0, 0);
    waitpid(child, 0, 0);
    ptrace(PTRACE_POKETEXT, child, sum, code);
    if (ptrace(PTRACE_GETREGS, child, 0, registers) != 0)
        fail("ptrace");
    registers->rip = (uintptr_t)sum;
    ptrace(PTRACE_SETREGS, child, 0, registers);
    return child;
}

/* The instructions of one call, its return included. */
static long steps(checksum sum, size_t n)
{
    struct user_regs_struct registers;
    pid_t child = stopped_in(sum, n, &registers);
    unsigned long back = ptrace(PTRACE_PEEKDATA, child, registers.rsp, 0);
    long count = 0;

    do {
        ptrace(PTRACE_SINGLESTEP, child, 0, 0);
        waitpid(child, 0, 0);
        if (ptrace(PTRACE_GETREGS, child, 0, &registers) != 0)
            fail("ptrace");
        count++;
    } while (registers.rip != back);
    kill(child, SIGKILL);
    waitpid(child, 0, 0);
    return count;
}

/* Whether the rounds take more at this length. */
static int dearer(size_t n, int shown)
{
    long rounds = steps(words_checksum, n), each = steps(words_checksum_each, n);

    if (shown || rounds > each)
        printf("%5zu bytes: rounds %5ld, each %5ld%s\n", n, rounds, each, rounds > each ? ", more" : "");
    return rounds > each;
}

int main(void)
{
    static const size_t others[] = { 1000, 4096, 10000, BODY };
    int more = 0;

    for (size_t i = 0; i < BODY; i++)
        body[i] = (uint8_t)(i * 2654435761u >> 13);
    for (size_t n = 0; n <= BODY; n++)
        if (words_checksum(body, n) != words_checksum_each(body, n)) {
            printf("%zu bytes: the sums differ\n", n);
            return 1;
        }
    for (size_t n = 0; n <= EACH_TO; n++)
        more += dearer(n, n <= ROUND + 1 || n == 250 || n == 256) && n >= ROUND;
    for (size_t i = 0; i < sizeof others / sizeof *others; i++)
        more += dearer(others[i], 1);
    printf("lengths from %d to %d, and these, at which the rounds take more: %d\n", ROUND, EACH_TO, more);
    return more != 0;
}
