// A user side that others wrote, at the far end of a live day: libpri whole, its own Q.921 and Q.931, on a UDP port. One frame of
// HDLC is one datagram; what HDLC does with it, the frame check sequence, is done here, and nothing of Q.921. Tests alone run it;
// no part of `bx` is linked to it.
//
//     line HERE:THERE MIDNIGHT PACE SECONDS POLICY [offer M NUMBER CHANNEL | reset M CHANNEL]...
//
// HERE and THERE are UDP ports on 127.0.0.1, this end's and the other's. MIDNIGHT is when the day begins, in seconds since 1970;
// PACE is how many of its seconds one of the clock has; it is over after SECONDS, or once SIGTERM came. The timers of libpri run by the clock, whatever
// the pace. POLICY, `offer` and `reset` are those of rehearsal.c. It prints what it counted, and how often the data link came up and went.

#include "calls.h"
#include <arpa/inet.h>
#include <poll.h>
#include <signal.h>
#include <sys/socket.h>
#include <sys/time.h>
#include <unistd.h>

static int line_fd;
static unsigned ups, downs;
static double midnight, pace;
static volatile sig_atomic_t is_over;

static void end_day(int signal_number) {
    (void)signal_number;
    is_over = 1;
}

static double now(void) {
    struct timeval time;
    gettimeofday(&time, NULL);
    return time.tv_sec + time.tv_usec / 1e6;
}

static uint32_t moment_now(void) {
    double moment = (now() - midnight) * pace;
    return moment > 0 ? moment : 0;
}

// ---- frames of HDLC: each has a check sequence of 16 bits after it, the low octet first
static unsigned check_sequence(const unsigned char *octets, int length) {
    unsigned rest = 0xFFFF;
    for (int i = 0; i < length * 8; i++) {
        unsigned bit = (rest ^ octets[i / 8] >> i % 8) & 1;
        rest = rest >> 1 ^ (bit ? 0x8408 : 0);
    }
    return rest ^ 0xFFFF;
}

static int is_information(const unsigned char *frame, int length) {
    return length > 4 && (frame[2] & 1) == 0;
}

static int read_frame(struct pri *pri, void *buffer, int room) {
    (void)pri;
    unsigned char *frame = buffer;
    int length = recv(line_fd, frame, room, MSG_DONTWAIT) - 2;
    if (length < 3 || check_sequence(frame, length) != (frame[length] | (unsigned)frame[length + 1] << 8)) return 0;
    if (is_information(frame, length)) count_complaint(frame + 4, length - 4);
    return length + 2;
}

static int write_frame(struct pri *pri, void *buffer, int length) {
    (void)pri;
    unsigned char frame[2 * LONGEST];
    if (length > (int)sizeof frame) exit(1);
    memcpy(frame, buffer, length - 2); // its last two octets have room for the check sequence
    unsigned check = check_sequence(frame, length - 2);
    frame[length - 2] = check & 0xFF;
    frame[length - 1] = check >> 8;
    if (is_information(frame, length - 2)) count_complaint(frame + 4, length - 6);
    send(line_fd, frame, length, 0); // whether it comes nobody says
    return length;
}

static int open_line(const char *ports) {
    struct sockaddr_in here = {.sin_family = AF_INET, .sin_addr.s_addr = htonl(INADDR_LOOPBACK)}, there = here;
    const char *second = strchr(ports, ':');
    if (!second) return 0;
    here.sin_port = htons(atoi(ports));
    there.sin_port = htons(atoi(second + 1));
    line_fd = socket(AF_INET, SOCK_DGRAM, 0);
    return bind(line_fd, (struct sockaddr *)&here, sizeof here) == 0 && connect(line_fd, (struct sockaddr *)&there, sizeof there) == 0;
}

// ---- the day
static void hear(struct pri *pri, pri_event *event) {
    if (!event) return;
    if (event->e == PRI_EVENT_DCHAN_UP) ups++;
    if (event->e == PRI_EVENT_DCHAN_DOWN) downs++;
    handle(pri, event, moment_now());
}

// How many milliseconds there are up to the next second of the day, or to the next timer of libpri where that is earlier.
static int time_to_wait(struct pri *pri) {
    double instant = midnight + (moment_now() + 1) / pace;
    struct timeval *timer = pri_schedule_next(pri);
    if (timer && timer->tv_sec + timer->tv_usec / 1e6 < instant) instant = timer->tv_sec + timer->tv_usec / 1e6;
    double wait = (instant - now()) * 1000;
    return wait > 0 ? (int)wait + 1 : 0;
}

static void run_day(struct pri *pri, uint32_t seconds) {
    struct pollfd line = {.fd = line_fd, .events = POLLIN};
    while (!is_over && moment_now() < seconds) {
        do_what_is_due(pri, moment_now());
        int came = poll(&line, 1, time_to_wait(pri));
        hear(pri, came > 0 ? pri_check_event(pri) : pri_schedule_run(pri));
    }
}

static void print_message(struct pri *pri, char *text) {
    (void)pri;
    fputs(text, stderr);
}

int main(int count, char **words) {
    if (count < 6 || !open_line(words[1]) || !read_offers(count - 6, words + 6)) return 2;
    midnight = atof(words[2]);
    pace = atof(words[3]);
    policy = words[5];
    signal(SIGTERM, end_day);
    pri_set_message(print_message);
    pri_set_error(print_message);
    struct pri *pri = pri_new_cb(line_fd, PRI_CPE, PRI_SWITCH_EUROISDN_E1, read_frame, write_frame, NULL);
    if (getenv("PEER_DEBUG")) pri_set_debug(pri, PRI_DEBUG_ALL);
    run_day(pri, atoi(words[4]));
    print_counts();
    printf("ups %u downs %u\n", ups, downs);
    return 0;
}
