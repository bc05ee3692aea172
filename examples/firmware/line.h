/* The line: a recording in a file, a pipe, standard input, or a serial device. */
#ifndef LINE_H
#define LINE_H

#include <stddef.h>
#include <stdint.h>
#include <termios.h>

struct line {
    /* For messages: the path, or "standard input". */
    const char *name;
    int descriptor;
    /* A device takes replies; a recording does not. */
    int is_device;
};

/* Opens the path, or standard input if it is NULL, and waits for nobody. A device is put in raw
 * mode. A pipe ends where it has no writer. Answers 0, or -1 with errno set. */
int line_open(struct line *line, const char *path);

/* Changes what has to change so that each byte has eight bits and passes as it is. Speed, parity,
 * stop bits and hardware flow control stay as the user has set them. */
void line_make_raw(struct termios *settings);

/* Answers the number of bytes read, 0 at the end or after a hang-up, or -1 with errno set. */
int line_read(const struct line *line, uint8_t *bytes, size_t room);

/* Sends the bytes if the line is a device. Answers 0, or -1 with errno set. */
int line_reply(const struct line *line, const uint8_t *bytes, size_t length);

#endif
