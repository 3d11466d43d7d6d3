/* For a FUSE server that a test starts: it ends when the test does, and leaves the test's mounts to the test. A server that held the mounts, and ended last,
   would have the system unmount what only the server itself can still write, and wait for that without end. So it goes to the mounts that were there before
   the test had its own: `before` is the number of an open file of them, from /proc. */
#include <sched.h>
#include <signal.h>
#include <stdlib.h>
#include <sys/prctl.h>

static void end_with_parent(void) {
    prctl(PR_SET_PDEATHSIG, SIGKILL);
}

static void leave_mounts(const char *before) {
    if (setns(atoi(before), CLONE_NEWNS))
        abort();
}
