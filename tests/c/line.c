/* What the example changes of a serial device's settings, and what it leaves to the user. */
#define _DEFAULT_SOURCE

#include "line.h"

#include "expect.h"

#include <string.h>

/* Source document 000 asks for odd parity and hardware flow control at 115,200 bits a second; the
 * other flags are for the user to choose too. */
#define LEFT_CONTROL (PARENB | PARODD | CSTOPB | CRTSCTS | CLOCAL | HUPCL)
#define LEFT_INPUT (INPCK | IGNPAR | IGNBRK)
/* With one of these a byte would be taken for a sign, changed, doubled or held back. */
#define CLEARED_INPUT (BRKINT | PARMRK | ISTRIP | INLCR | IGNCR | ICRNL | IXON | IXOFF)
#define CLEARED_LOCAL (ECHO | ECHONL | ICANON | ISIG | IEXTEN)

static void expect_raw(const struct termios *settings)
{
    expect_number("eight bits", settings->c_cflag & CSIZE, CS8);
    expect_number("the receiver is on", settings->c_cflag & CREAD, CREAD);
    expect_number("input flags cleared", settings->c_iflag & CLEARED_INPUT, 0);
    expect_number("output as it is", settings->c_oflag & OPOST, 0);
    expect_number("local flags cleared", settings->c_lflag & CLEARED_LOCAL, 0);
    expect_number("a read waits for one byte", settings->c_cc[VMIN], 1);
    expect_number("and for no time", settings->c_cc[VTIME], 0);
}

static void expect_left(const char *what, int set)
{
    struct termios settings;
    memset(&settings, set ? 0xff : 0, sizeof settings);
    cfsetispeed(&settings, B115200);
    cfsetospeed(&settings, B115200);
    tcflag_t speed = settings.c_cflag & CBAUD;
    line_make_raw(&settings);
    expect_raw(&settings);
    expect_number(what, settings.c_cflag & LEFT_CONTROL, set ? LEFT_CONTROL : 0);
    expect_number(what, settings.c_iflag & LEFT_INPUT, set ? LEFT_INPUT : 0);
    expect_number("the input's speed stays", cfgetispeed(&settings), B115200);
    expect_number("the output's speed stays", cfgetospeed(&settings), B115200);
    expect_number("the bits of the speed stay", settings.c_cflag & CBAUD, speed);
}

int main(void)
{
    expect_left("parity, stop bits and flow control stay on", 1);
    expect_left("parity, stop bits and flow control stay off", 0);
    return expect_summary("settings of a line");
}
