// Joins the line of `bx` with a D channel of DAHDI: a datagram is a frame with its check sequence, and so is a read or write of the device.
//
//     bx-dahdi DEVICE HERE:THERE [BUFFERS]        bx-dahdi /dev/dahdi/16 9932:9931
//
// HERE is the UDP port of 127.0.0.1 that this program has, THERE the exchange's. The channel gets 32 buffers, or BUFFERS: of the two that it
// has by itself each burst loses frames. Events of the channel (an alarm, a frame that came damaged) are taken and told on standard error, for
// until they are each read and write fails. Ends with status 2 at wrong words, with 1 where a port or the device is not had, or is gone.

#include <arpa/inet.h>
#include <dahdi/user.h>
#include <errno.h>
#include <fcntl.h>
#include <poll.h>
#include <stdio.h>
#include <stdlib.h>
#include <string.h>
#include <sys/ioctl.h>
#include <sys/socket.h>
#include <unistd.h>

static int line, device;

// The socket of the line; datagrams of other ports are not heard.
static int open_line(int here_port, int there_port) {
    struct sockaddr_in here = {.sin_family = AF_INET, .sin_addr.s_addr = htonl(INADDR_LOOPBACK)}, there = here;
    here.sin_port = htons((unsigned short)here_port);
    there.sin_port = htons((unsigned short)there_port);
    line = socket(AF_INET, SOCK_DGRAM, 0);
    return line < 0 || bind(line, (struct sockaddr *)&here, sizeof here) || connect(line, (struct sockaddr *)&there, sizeof there);
}

static int open_channel(const char *name, int count) {
    struct dahdi_bufferinfo buffers = {
        .txbufpolicy = DAHDI_POLICY_IMMEDIATE, .rxbufpolicy = DAHDI_POLICY_IMMEDIATE, .numbufs = count, .bufsize = 1024};
    device = open(name, O_RDWR | O_NONBLOCK);
    return device < 0 || ioctl(device, DAHDI_SET_BUFINFO, &buffers);
}

static int take_event(void) {
    int event;
    if (ioctl(device, DAHDI_GETEVENT, &event) || event == DAHDI_EVENT_NONE) return 0;
    fprintf(stderr, "bx-dahdi: event %d of the channel\n", event);
    return 1;
}

// DAHDI writes the check sequence over the last two octets of what it is given. A frame that does not fit is lost: Q.921 sends it again.
static void to_channel(const unsigned char *frame, size_t length) {
    while (write(device, frame, length) < 0)
        if (errno != ELAST || !take_event()) {
            fprintf(stderr, "bx-dahdi: a frame is lost: %s\n", strerror(errno));
            return;
        }
}

int main(int count, char **words) {
    int here, there, buffers = count == 4 ? atoi(words[3]) : 32;
    if (count < 3 || count > 4 || sscanf(words[2], "%d:%d", &here, &there) != 2 || buffers < 2) {
        fprintf(stderr, "usage: bx-dahdi DEVICE HERE:THERE [BUFFERS]\n");
        return 2;
    }
    if (open_channel(words[1], buffers)) return perror(words[1]), 1;
    if (open_line(here, there)) return perror(words[2]), 1;
    struct pollfd ends[] = {{.fd = line, .events = POLLIN}, {.fd = device, .events = POLLIN | POLLPRI}};
    while (poll(ends, 2, -1) >= 0 || errno == EINTR) {
        unsigned char frame[1024];
        ssize_t length;
        if (ends[1].revents & POLLPRI) take_event();
        if (ends[1].revents & (POLLERR | POLLHUP | POLLNVAL)) break;
        // a send that is refused (nobody has the other port just now) shows at the next call, and is passed over
        if (ends[1].revents & POLLIN && (length = read(device, frame, sizeof frame)) > 0) (void)!send(line, frame, (size_t)length, 0);
        if (ends[0].revents && (length = recv(line, frame, sizeof frame, MSG_DONTWAIT)) > 0) to_channel(frame, (size_t)length);
    }
    fprintf(stderr, "bx-dahdi: the device is gone\n");
    return 1;
}
