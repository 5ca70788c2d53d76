/* Puts adapters/tests/spi-bus in the place of a SPI device, for the program before which it is loaded (LD_PRELOAD).
 *
 * SPI_BUS_DEVICE is the path that is taken for the device, SPI_BUS_SOCKET the number of a socket to adapters/tests/spi-bus. Each ioctl of spidev
 * on that device goes there and comes back. As long as it is open CLOCK_MONOTONIC is the time of the simulated bus; it goes on by a
 * transfer, and by the time that the stand-in gives the program for its next line when one is read of standard input. A real-time
 * priority would slow the machine down, so it is given without effect, or refused if SPI_BUS_PRIORITY is there. */
#define _GNU_SOURCE
#include <dlfcn.h>
#include <errno.h>
#include <fcntl.h>
#include <linux/spi/spidev.h>
#include <sched.h>
#include <stdarg.h>
#include <stddef.h>
#include <stdint.h>
#include <stdlib.h>
#include <string.h>
#include <sys/ioctl.h>
#include <sys/socket.h>
#include <time.h>
#include <unistd.h>

#define MOST 65536
#define NEXT(name) dlsym(RTLD_NEXT, name)

struct request {
    int64_t now;
    uint32_t number, value;
    uint8_t bytes[MOST];
};

struct reply {
    int64_t result, now, gap;
    uint8_t bytes[MOST];
};

static int port = -1;
static int64_t now, gap;

static int opened(const char *path, int flags, unsigned mode, const char *name)
{
    const char *device = getenv("SPI_BUS_DEVICE"), *socket = getenv("SPI_BUS_SOCKET");
    int (*next)(const char *, int, ...) = NEXT(name);

    if (!device || !socket || strcmp(path, device))
        return next(path, flags, mode);
    return port = fcntl(atoi(socket), F_DUPFD_CLOEXEC, 3);
}

#define OPEN(name)                                     \
    int name(const char *path, int flags, ...)         \
    {                                                  \
        va_list more;                                  \
        unsigned mode;                                 \
                                                       \
        va_start(more, flags);                         \
        mode = va_arg(more, unsigned);                 \
        va_end(more);                                  \
        return opened(path, flags, mode, #name);       \
    }

OPEN(open)
OPEN(open64)

int close(int file)
{
    int (*next)(int) = NEXT("close");

    if (file == port)
        port = -1;
    return next(file);
}

/* One request and its reply; so many bytes go each way. */
static int64_t asked(uint32_t number, uint32_t value, const void *out, void *in, size_t count)
{
    static struct request request;
    static struct reply reply;
    size_t head = offsetof(struct request, bytes);

    if (count > MOST) {
        errno = EMSGSIZE;
        return -1;
    }
    request.now = now;
    request.number = number;
    request.value = value;
    memcpy(request.bytes, out, count);
    if (send(port, &request, head + count, MSG_NOSIGNAL) < 0 || recv(port, &reply, sizeof reply, 0) <= 0) {
        errno = ENODEV;
        return -1;
    }
    now = reply.now;
    gap = reply.gap;
    if (reply.result < 0) {
        errno = (int)-reply.result;
        return -1;
    }
    if (in)
        memcpy(in, reply.bytes, count);
    return reply.result;
}

int ioctl(int file, unsigned long number, ...)
{
    int (*next)(int, unsigned long, ...) = NEXT("ioctl");
    struct spi_ioc_transfer *transfer;
    uint32_t value = 0;
    va_list more;
    void *given;

    va_start(more, number);
    given = va_arg(more, void *);
    va_end(more);
    if (file != port)
        return next(file, number, given);
    if (number == SPI_IOC_MESSAGE(1)) {
        transfer = given;
        return (int)asked((uint32_t)number, transfer->speed_hz, (void *)(uintptr_t)transfer->tx_buf, (void *)(uintptr_t)transfer->rx_buf, transfer->len);
    }
    memcpy(&value, given, _IOC_SIZE(number) < sizeof value ? _IOC_SIZE(number) : sizeof value);
    return (int)asked((uint32_t)number, value, "", 0, 0);
}

int sched_setscheduler(pid_t process, int policy, const struct sched_param *priority)
{
    (void)process, (void)policy, (void)priority;
    if (!getenv("SPI_BUS_PRIORITY"))
        return 0;
    errno = EPERM;
    return -1;
}

ssize_t read(int file, void *bytes, size_t count)
{
    ssize_t (*next)(int, void *, size_t) = NEXT("read");
    ssize_t found = next(file, bytes, count);

    if (file == 0) {
        now += gap;
        gap = 0;
    }
    return found;
}

int clock_gettime(clockid_t clock, struct timespec *time)
{
    int (*next)(clockid_t, struct timespec *) = NEXT("clock_gettime");

    if (clock != CLOCK_MONOTONIC || port < 0 || now == 0)
        return next(clock, time);
    time->tv_sec = now / 1000000;
    time->tv_nsec = now % 1000000 * 1000;
    return 0;
}
