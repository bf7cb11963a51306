/* A read and a write that fail, are interrupted or move few bytes, by a plan: check/programs has the loader put them before the C library's.
 *
 * READS is the plan of standard input, WRITES that of standard output: numbers parted by blanks, one for each call. n lets at most n bytes through; -e fails with
 * the error number e and moves none; either may be followed by xK, for K calls. The last number holds for all further calls. With no plan each call goes through.
 *
 * Programs are x86-64. No header is included, so that any compiler makes this for them. */

typedef unsigned long size;

extern char *getenv(const char *name);
extern long strtol(const char *text, char **end, int base);
extern long syscall(long number, ...);
extern int *__errno_location(void);

struct plan {
    const char *name; /* of the variable */
    const char *rest; /* what is still to come of it */
    long step, left;  /* the number that holds, and for how many more calls */
};

static long next_step(struct plan *plan)
{
    char *end;
    if (plan->rest == 0) {
        plan->rest = getenv(plan->name);
        if (plan->rest == 0)
            plan->rest = "2147483647";
    }
    if (plan->left > 0) {
        plan->left--;
        return plan->step;
    }
    long step = strtol(plan->rest, &end, 10);
    if (end != plan->rest) {
        plan->step = step;
        if (*end == 'x')
            plan->left = strtol(end + 1, &end, 10) - 1;
        plan->rest = end;
    }
    return plan->step;
}

/* on x86-64 the numbers of the calls read and write are those of the descriptors that they are made on here */
static long moved(int number, struct plan *plan, int fd, const void *bytes, size n)
{
    if (fd == number) {
        long step = next_step(plan);
        if (step < 0) {
            *__errno_location() = (int)-step;
            return -1;
        }
        if ((size)step < n)
            n = (size)step;
    }
    return syscall(number, fd, bytes, n);
}

long read(int fd, void *bytes, size n)
{
    static struct plan plan = {"READS", 0, 0, 0};
    return moved(0, &plan, fd, bytes, n);
}

long write(int fd, const void *bytes, size n)
{
    static struct plan plan = {"WRITES", 0, 0, 0};
    return moved(1, &plan, fd, bytes, n);
}
