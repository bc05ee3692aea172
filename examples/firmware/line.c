#define _POSIX_C_SOURCE 200809L

#include "line.h"

#include <errno.h>
#include <fcntl.h>
#include <sys/stat.h>
#include <unistd.h>

/* IXON and IXOFF would take the bytes 11 and 13 off the line, PARMRK would put bytes in. */
void line_make_raw(struct termios *settings)
{
    settings->c_iflag &=
        ~(tcflag_t)(BRKINT | PARMRK | ISTRIP | INLCR | IGNCR | ICRNL | IXON | IXOFF);
    settings->c_oflag &= ~(tcflag_t)OPOST;
    settings->c_lflag &= ~(tcflag_t)(ECHO | ECHONL | ICANON | ISIG | IEXTEN);
    settings->c_cflag &= ~(tcflag_t)CSIZE;
    settings->c_cflag |= CS8 | CREAD;
    settings->c_cc[VMIN] = 1;
    settings->c_cc[VTIME] = 0;
}

static int set_raw(int descriptor)
{
    struct termios settings;
    if (tcgetattr(descriptor, &settings) != 0)
        return -1;
    line_make_raw(&settings);
    return tcsetattr(descriptor, TCSANOW, &settings);
}

/* A device is opened for writing too. A pipe is not: whoever holds its writing end never sees its
 * end. Opened without waiting, for a carrier or for the writer of a pipe. */
static int open_path(const char *path)
{
    struct stat status;
    if (stat(path, &status) != 0)
        return -1;
    int direction = S_ISCHR(status.st_mode) ? O_RDWR : O_RDONLY;
    return open(path, direction | O_NOCTTY | O_NONBLOCK);
}

int line_open(struct line *line, const char *path)
{
    line->name = path != NULL ? path : "standard input";
    line->descriptor = STDIN_FILENO;
    line->is_device = 0;
    if (path == NULL)
        return 0;
    line->descriptor = open_path(path);
    if (line->descriptor < 0)
        return -1;
    if (fcntl(line->descriptor, F_SETFL, 0) != 0)
        return -1;
    line->is_device = isatty(line->descriptor);
    return line->is_device ? set_raw(line->descriptor) : 0;
}

int line_read(const struct line *line, uint8_t *bytes, size_t room)
{
    ssize_t count;
    do
        count = read(line->descriptor, bytes, room);
    while (count < 0 && errno == EINTR);
    if (count < 0 && errno == EIO && line->is_device)
        return 0;
    return (int)count;
}

int line_reply(const struct line *line, const uint8_t *bytes, size_t length)
{
    if (!line->is_device)
        return 0;
    while (length != 0) {
        ssize_t count = write(line->descriptor, bytes, length);
        if (count < 0 && errno == EINTR)
            continue;
        if (count < 0)
            return -1;
        bytes += count;
        length -= (size_t)count;
    }
    return 0;
}
