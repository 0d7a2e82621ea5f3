/* feed WAY COMMAND..: runs a command with an awkward standard input or output, and exits with its status.
 *
 * By the first three ways the command is fed the text on feed's own standard input, in pieces: a `|` in it ends one and is left out.
 *   packets   each read brings one piece
 *   late      a pipe that doesn't wait: a piece comes once the one before it is taken, and a read before that fails with EAGAIN
 *   broken    all pieces at once, and then a read that fails with ECONNRESET
 *   full      standard output is a pipe of one page that doesn't wait: it is emptied once something is in it, and a write that
 *             finds no room before that fails with EAGAIN
 *
 * A pause gives the command occasion to meet an empty or a full pipe. A right one goes on whether it does or not, so nothing
 * depends on time. */
#define _GNU_SOURCE
#include <err.h>
#include <fcntl.h>
#include <poll.h>
#include <signal.h>
#include <stdbool.h>
#include <stdio.h>
#include <string.h>
#include <sys/ioctl.h>
#include <sys/socket.h>
#include <sys/wait.h>
#include <unistd.h>

#define PAUSE 20 /* milliseconds */

static void good(bool is_good, const char *what) {
    if (!is_good) {
        err(2, "%s", what);
    }
}

/* Starts the command with its end as a standard descriptor, and keeps the other. */
static pid_t start(char **command, int as, int its_end, int own_end) {
    pid_t child = fork();
    good(child >= 0, "fork");
    if (child == 0) {
        good(dup2(its_end, as) == as, "dup2");
        close(its_end);
        close(own_end);
        execvp(command[0], command);
        good(false, command[0]);
    }
    close(its_end);
    signal(SIGPIPE, SIG_IGN); /* a command that ends early is no fault of feed's */
    return child;
}

static int ended(pid_t child) {
    int status;
    good(waitpid(child, &status, 0) == child, "waitpid");
    return WIFEXITED(status) ? WEXITSTATUS(status) : 128 + WTERMSIG(status);
}

/* Waits until a pipe is empty, or holds something, or its other end is closed; and a little longer. */
static void wait_until(bool is_empty, int end) {
    struct pollfd other = {.fd = end, .events = 0};
    int held;
    do {
        good(ioctl(end, FIONREAD, &held) == 0 && poll(&other, 1, 1) >= 0, "pipe");
    } while ((held == 0) != is_empty && !(other.revents & (POLLERR | POLLHUP)));
    poll(NULL, 0, PAUSE);
}

static void hand(int end, const char *piece, size_t length) {
    if (length > 0) {
        (void)!write(end, piece, length);
    }
}

static void hand_once_taken(int end, const char *piece, size_t length) {
    wait_until(true, end);
    hand(end, piece, length);
}

/* Hands on the pieces of the text on standard input. */
static void hand_pieces(int end, void (*hand_piece)(int end, const char *piece, size_t length)) {
    static char text[1 << 22];
    size_t length = fread(text, 1, sizeof text, stdin), at = 0;
    good(length < sizeof text, "the text is too long");
    while (at < length) {
        char *bar = memchr(text + at, '|', length - at);
        size_t n = bar ? (size_t)(bar - text) - at : length - at;
        hand_piece(end, text + at, n);
        at += n + 1;
    }
    close(end);
}

static int packets(char **command) {
    int ends[2];
    good(socketpair(AF_UNIX, SOCK_SEQPACKET, 0, ends) == 0, "socketpair");
    pid_t child = start(command, STDIN_FILENO, ends[0], ends[1]);
    hand_pieces(ends[1], hand);
    return ended(child);
}

static int late(char **command) {
    int ends[2];
    good(pipe(ends) == 0 && fcntl(ends[0], F_SETFL, O_NONBLOCK) == 0, "pipe");
    pid_t child = start(command, STDIN_FILENO, ends[0], ends[1]);
    hand_pieces(ends[1], hand_once_taken);
    return ended(child);
}

/* A socket is reset when its other end is closed before all that was sent there is read. What was sent here is read first. */
static int broken(char **command) {
    int ends[2];
    good(socketpair(AF_UNIX, SOCK_STREAM, 0, ends) == 0, "socketpair");
    hand(ends[0], "unread", 6);
    hand_pieces(ends[1], hand);
    return ended(start(command, STDIN_FILENO, ends[0], ends[1]));
}

static int full(char **command) {
    int ends[2];
    char bytes[4096];
    ssize_t n;
    good(pipe(ends) == 0 && fcntl(ends[1], F_SETPIPE_SZ, 1) > 0 && fcntl(ends[1], F_SETFL, O_NONBLOCK) == 0, "pipe");
    pid_t child = start(command, STDOUT_FILENO, ends[1], ends[0]);
    do {
        wait_until(false, ends[0]);
        n = read(ends[0], bytes, sizeof bytes);
        good(n >= 0 && fwrite(bytes, 1, (size_t)n, stdout) == (size_t)n, "standard output");
    } while (n > 0);
    good(fflush(stdout) == 0, "standard output");
    return ended(child);
}

int main(int count, char **words) {
    static const struct {
        const char *name;
        int (*run)(char **command);
    } ways[] = {{"packets", packets}, {"late", late}, {"broken", broken}, {"full", full}};
    for (size_t i = 0; count > 2 && i < sizeof ways / sizeof *ways; i++) {
        if (strcmp(words[1], ways[i].name) == 0) {
            return ways[i].run(words + 2);
        }
    }
    errx(2, "usage: feed packets|late|broken|full COMMAND..");
}
