// Joins the line of `bx` with the D channel of a primary rate device of the Linux kernel's mISDN, layer 1: a datagram is a frame. mISDN gives and
// takes frames without their check sequence, so this program puts it after each frame that comes, and takes it off each that goes.
//
//     bx-misdn NUMBER HERE:THERE        bx-misdn 0 9932:9931
//
// NUMBER is the device's, as below /sys/class/mISDN. HERE is the UDP port of 127.0.0.1 that this program has, THERE the exchange's. Ends with
// status 2 at wrong words, with 1 where a port or the device is not had, or is gone.

#include <arpa/inet.h>
#include <errno.h>
#include <poll.h>
#include <stdio.h>
#include <string.h>
#include <sys/socket.h>
#include <unistd.h>
#include "mISDNif.h"

static int line, channel;
static struct {
    struct mISDNhead head;
    unsigned char octets[2048];
} message;

// The FCS of 16 bits (ITU-T Q.921, 2.7).
static unsigned check_sequence(const unsigned char *octets, int length) {
    unsigned rest = 0xFFFF;
    for (int bit = 0; bit < length * 8; bit++) {
        unsigned differs = (rest ^ octets[bit / 8] >> bit % 8) & 1;
        rest = rest >> 1 ^ (differs ? 0x8408 : 0);
    }
    return rest ^ 0xFFFF;
}

static int open_line(int here_port, int there_port) {
    struct sockaddr_in here = {.sin_family = AF_INET, .sin_addr.s_addr = htonl(INADDR_LOOPBACK)}, there = here;
    here.sin_port = htons((unsigned short)here_port);
    there.sin_port = htons((unsigned short)there_port);
    line = socket(AF_INET, SOCK_DGRAM, 0);
    return line < 0 || bind(line, (struct sockaddr *)&here, sizeof here) || connect(line, (struct sockaddr *)&there, sizeof there);
}

static int open_channel(int number) {
    struct sockaddr_mISDN device = {.family = AF_ISDN, .dev = (unsigned char)number};
    channel = socket(PF_ISDN, SOCK_DGRAM, ISDN_P_NT_E1);
    message.head = (struct mISDNhead){.prim = PH_ACTIVATE_REQ, .id = MISDN_ID_ANY};
    return channel < 0 || bind(channel, (struct sockaddr *)&device, sizeof device) || send(channel, &message, sizeof message.head, 0) < 0;
}

// Frames alone go to the line; what else layer 1 tells goes to standard error, but for what the kernel gives back: each request of this program.
static void to_line(int length) {
    if (message.head.prim == PH_DATA_IND) {
        unsigned check = check_sequence(message.octets, length);
        message.octets[length] = check & 0xFF, message.octets[length + 1] = check >> 8 & 0xFF;
        (void)!send(line, message.octets, (size_t)length + 2, 0);
    } else if (message.head.prim != PH_DATA_CNF && message.head.prim != PH_DATA_REQ && message.head.prim != PH_ACTIVATE_REQ)
        fprintf(stderr, "bx-misdn: primitive %04x\n", message.head.prim);
}

static void to_channel(int length) {
    message.head.prim = PH_DATA_REQ, message.head.id = MISDN_ID_ANY;
    if (send(channel, &message, sizeof message.head + (size_t)length, 0) < 0) fprintf(stderr, "bx-misdn: a frame is lost: %s\n", strerror(errno));
}

int main(int count, char **words) {
    int number, here, there, length;
    if (count != 3 || sscanf(words[1], "%d", &number) != 1 || sscanf(words[2], "%d:%d", &here, &there) != 2)
        return fprintf(stderr, "usage: bx-misdn NUMBER HERE:THERE\n"), 2;
    if (open_channel(number)) return perror("bx-misdn: the device"), 1;
    if (open_line(here, there)) return perror(words[2]), 1;
    struct pollfd ends[] = {{.fd = line, .events = POLLIN}, {.fd = channel, .events = POLLIN}};
    while ((poll(ends, 2, -1) >= 0 || errno == EINTR) && !(ends[1].revents & (POLLERR | POLLHUP | POLLNVAL))) {
        if (ends[1].revents && (length = (int)recv(channel, &message, sizeof message - 2, MSG_DONTWAIT) - (int)sizeof message.head) >= 0) to_line(length);
        if (ends[0].revents && (length = (int)recv(line, message.octets, sizeof message.octets, MSG_DONTWAIT) - 2) > 2) to_channel(length);
    }
    fprintf(stderr, "bx-misdn: the device is gone\n");
    return 1;
}
