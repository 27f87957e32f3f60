/* The program's entry: the exit status is what a function in Rattle answers, unless closing standard output fails after it. */
#include <errno.h>
#include <signal.h>
#include <stdio.h>
#include <unistd.h>

/* crates/tanczotka: all that the program does before standard output is closed. Its handles of standard input, output and error take no
   bytes, so nothing is passed for them. */
int tanczotka_program(void);

/* The toolchain's library `os` takes errno from here. */
int rattle_errno(void) {
    return errno;
}

/* Standard output is closed after everything was printed, since a write may fail as late as that. */
static int closing(void) {
    if (close(STDOUT_FILENO) == 0)
        return 0;
    perror("tanczotka: standard output could not be written");
    return 4;
}

int main(void) {
    /* So that writing to a closed pipe is a write that fails, and is said. */
    signal(SIGPIPE, SIG_IGN);
    int status = tanczotka_program();
    return status == 0 ? closing() : status;
}
