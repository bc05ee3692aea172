/*
 * The example on a serial device: a pseudo-terminal stands for the line, and the test plays the
 * module at its other end. The example's path is the argument.
 *
 * A pseudo-terminal of Linux takes PARENB for itself and switches it off; that the example leaves
 * it alone is for tests/c/line.c to say.
 */
#define _XOPEN_SOURCE 700
#define _DEFAULT_SOURCE

#include "expect.h"

#include <errno.h>
#include <fcntl.h>
#include <poll.h>
#include <stdio.h>
#include <stdlib.h>
#include <sys/wait.h>
#include <termios.h>
#include <unistd.h>

/* How long the example may take for one step, and for all. */
#define PATIENCE_MS 10000
#define PATIENCE_S 60

struct terminal {
    int module;
    int device;
    const char *path;
};

static int open_terminal(struct terminal *terminal)
{
    terminal->module = posix_openpt(O_RDWR | O_NOCTTY);
    if (terminal->module < 0 || grantpt(terminal->module) != 0 || unlockpt(terminal->module) != 0)
        return -1;
    terminal->path = ptsname(terminal->module);
    terminal->device = terminal->path == NULL ? -1 : open(terminal->path, O_RDWR | O_NOCTTY);
    return terminal->device < 0 ? -1 : 0;
}

/* Sets the device as source document 000 asks, and answers what it has kept of that. */
static int set_device(int device, struct termios *kept)
{
    if (tcgetattr(device, kept) != 0)
        return -1;
    kept->c_cflag |= PARENB | PARODD | CRTSCTS;
    kept->c_cflag &= ~(tcflag_t)CSTOPB;
    if (cfsetispeed(kept, B115200) != 0 || cfsetospeed(kept, B115200) != 0)
        return -1;
    return tcsetattr(device, TCSANOW, kept) != 0 ? -1 : tcgetattr(device, kept);
}

static pid_t start_example(const char *example, const struct terminal *terminal, int output)
{
    pid_t child = fork();
    if (child != 0)
        return child;
    if (dup2(output, STDOUT_FILENO) < 0)
        _exit(126);
    close(terminal->module);
    close(terminal->device);
    execl(example, example, terminal->path, (char *)NULL);
    _exit(127);
}

/* Waits until the example has put the device in raw mode. */
static int wait_until_raw(int device)
{
    struct termios settings;
    for (int waited = 0; waited < PATIENCE_MS; waited += 10) {
        if (tcgetattr(device, &settings) == 0 && !(settings.c_lflag & ICANON))
            return 1;
        poll(NULL, 0, 10);
    }
    return 0;
}

static void expect_kept(int device, const struct termios *kept)
{
    struct termios settings;
    expect_number("settings are told", (uint64_t)tcgetattr(device, &settings), 0);
    expect_number("odd parity and flow control were set", kept->c_cflag & (PARODD | CRTSCTS),
                  PARODD | CRTSCTS);
    expect_number("control flags stay", settings.c_cflag, kept->c_cflag);
    expect_number("the input's speed stays", cfgetispeed(&settings), B115200);
    expect_number("the output's speed stays", cfgetospeed(&settings), B115200);
}

/* Reads until the room is full, nothing more comes, or the other end is closed. */
static size_t read_bytes(int descriptor, uint8_t *bytes, size_t room)
{
    struct pollfd source = {descriptor, POLLIN, 0};
    size_t length = 0;
    while (length < room && poll(&source, 1, PATIENCE_MS) > 0) {
        ssize_t count = read(descriptor, bytes + length, room - length);
        if (count <= 0)
            break;
        length += (size_t)count;
    }
    return length;
}

/* A data frame whose bytes 03, 04, 0a, 0d, 11, 13 and 1a mean something to a terminal that is not
 * raw. Its reply is known answer 3. */
static void converse(int module, int output)
{
    static const uint8_t sent[] = {0x7e, 0x01, 0x00, 0x03, 0x04, 0x0a, 0x0d,
                                   0x11, 0x13, 0x1a, 0xc3, 0x52, 0x7e};
    static const uint8_t wanted[] = {0x7e, 0x02, 0x00, 0x7b, 0x6d, 0x7e};
    static const char printed[] = "type 01 sequence 00 payload 03040a0d11131a reply 7e02007b6d7e\n";
    uint8_t reply[sizeof wanted] = {0};
    uint8_t line[sizeof printed - 1] = {0};
    expect_number("bytes sent", (uint64_t)write(module, sent, sizeof sent), sizeof sent);
    expect_number("bytes of the reply", read_bytes(module, reply, sizeof reply), sizeof wanted);
    expect_bytes("reply", reply, wanted, sizeof wanted);
    expect_number("bytes printed", read_bytes(output, line, sizeof line), sizeof line);
    expect_bytes("line printed", line, (const uint8_t *)printed, sizeof line);
}

int main(int argc, char **argv)
{
    struct terminal terminal;
    struct termios kept;
    int output[2];
    int status = 0;
    if (argc != 2 || pipe(output) != 0)
        return 2;
    if (open_terminal(&terminal) != 0) {
        /* A system that has none is passed over. */
        int result = errno == ENOENT ? EXIT_SUCCESS : EXIT_FAILURE;
        perror("serial: not run, no pseudo-terminal");
        return result;
    }
    alarm(PATIENCE_S);
    if (set_device(terminal.device, &kept) != 0)
        return 2;
    pid_t child = start_example(argv[1], &terminal, output[1]);
    expect_number("raw mode is set", (uint64_t)wait_until_raw(terminal.device), 1);
    expect_kept(terminal.device, &kept);
    close(terminal.device);
    converse(terminal.module, output[0]);
    close(terminal.module);
    expect_number("the example ends", (uint64_t)waitpid(child, &status, 0), (uint64_t)child);
    expect_number("its exit status", (uint64_t)status, 0);
    return expect_summary("serial");
}
