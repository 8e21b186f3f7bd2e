#define _DEFAULT_SOURCE /* RTS/CTS is no part of POSIX */
#include "port.h"
#include "say.h"

#include <errno.h>
#include <fcntl.h>
#include <string.h>
#include <sys/ioctl.h>
#include <unistd.h>

#define DTR_OFF (SECOND / 2) /* long enough for a TNC or a modem to see it */

static const struct speed {
    const char *bits;
    speed_t speed;
} speeds[] = {
    { "300", B300 }, { "600", B600 }, { "1200", B1200 }, { "2400", B2400 }, { "4800", B4800 }, { "9600", B9600 }, { "19200", B19200 },
    { "38400", B38400 },
#if defined(B57600)
    { "57600", B57600 },
#endif
#if defined(B115200)
    { "115200", B115200 },
#endif
#if defined(B230400)
    { "230400", B230400 },
#endif
};

/* B0, which hangs up, if there is no such speed. */
static speed_t speed_of(const char *bits)
{
    size_t i;

    for (i = 0; i < sizeof speeds / sizeof speeds[0]; i++) {
        if (!strcmp(speeds[i].bits, bits))
            return speeds[i].speed;
    }
    say("%s: no speed of a serial port; 300, 600, 1200, 2400, 4800, 9600, 19200, 38400, 57600, 115200 or 230400 bit/s", bits);
    return B0;
}

/* Another fringemole respects the lock; TIOCEXCL keeps every program out that isn't root's. */
static bool lock(int line)
{
    struct flock all = { .l_type = F_WRLCK, .l_whence = SEEK_SET };

    if (fcntl(line, F_SETLK, &all))
        return false;
#if defined(TIOCEXCL)
    ioctl(line, TIOCEXCL);
#endif
    return true;
}

/* Eight bits, no parity, one stop bit, and every byte as it is. What came before we were there is no part of the link. */
static bool set_line(int line, const struct termios *before, speed_t speed, bool flow)
{
    struct termios mode = *before;

    mode.c_iflag = 0;
    mode.c_oflag = 0;
    mode.c_lflag = 0;
    mode.c_cflag = CS8 | CREAD | CLOCAL | HUPCL;
#if defined(CRTSCTS)
    if (flow)
        mode.c_cflag |= CRTSCTS;
#else
    if (flow) {
        errno = ENOTSUP;
        return false;
    }
#endif
    mode.c_cc[VMIN] = 1;
    mode.c_cc[VTIME] = 0;
    return !cfsetispeed(&mode, speed) && !cfsetospeed(&mode, speed) && !tcsetattr(line, TCSANOW, &mode) && !tcflush(line, TCIOFLUSH);
}

bool serial_has_carrier(int line)
{
#if defined(TIOCMGET) && defined(TIOCM_CAR)
    int lines = 0;

    return ioctl(line, TIOCMGET, &lines) == 0 && lines & TIOCM_CAR;
#else
    (void)line;
    return false;
#endif
}

bool serial_open(struct port *port, const char *device, const char *bits, bool flow)
{
    speed_t speed = speed_of(bits);
    int line;

    if (speed == B0)
        return false;
    line = open(device, O_RDWR | O_NOCTTY | O_NONBLOCK);
    port_start(port, line, line);
    if (line >= 0)
        say_not_on(line);
    if (line >= 0 && !lock(line)) {
        say("%s: the line is in use by another process", device);
        close(line);
        return false;
    }
    if (line < 0 || tcgetattr(line, &port->before) || !set_line(line, &port->before, speed, flow)) {
        say("%s: %s", device, strerror(errno));
        if (line >= 0)
            close(line);
        return false;
    }
    port->kind = LINE;
    port->carrier = serial_has_carrier(line);
    say("%s: open at %s bit/s%s%s", device, bits, flow ? ", RTS/CTS" : "", port->carrier ? ", with carrier" : "");
    return true;
}

void serial_close(struct port *port)
{
    struct termios mode = port->before;

    tcflush(port->out, TCOFLUSH); /* what doesn't leave would hold the close up */
    cfsetospeed(&mode, B0);
    if (!tcsetattr(port->out, TCSANOW, &mode)) {
        moment_sleep(DTR_OFF);
        tcsetattr(port->out, TCSANOW, &port->before);
    }
#if defined(TIOCNXCL)
    ioctl(port->out, TIOCNXCL);
#endif
}
