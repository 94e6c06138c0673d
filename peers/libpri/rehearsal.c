// A user side that others wrote, at the far end of a rehearsal: Q.931 call control by libpri behind the frames of the link, whose
// data link this program stands in for. Tests alone run it; no part of `bx` is linked to it.
//
//     rehearsal PORT POLICY [offer M NUMBER CHANNEL | reset M CHANNEL]...
//
// POLICY is what it does with a SETUP: `answer` (CONNECT), `ring` (ALERTING, CONNECT 3 s later), `clear` (CONNECT, DISCONNECT 5 s
// later), `busy` (cause 17) or `silent`. `offer` calls at second M; `reset` restarts a channel (RESTART). It ends with status 0 where the exchange says that the day is
// over, and prints what it counted.

#include "calls.h"
#include <arpa/inet.h>
#include <sys/socket.h>
#include <unistd.h>

enum { MESSAGE = 1, END_OF_TURN = 2, END_OF_DAY = 3, HELD = 4096 };

static int link_fd = -1;

// ---- the data link, which the frames of the link stand in for: libpri speaks Q.921 below Q.931
static unsigned char inbox[HELD][LONGEST + 8];
static int inbox_length[HELD], inbox_first, inbox_count;
static unsigned sent_number, received_number; // N(S) of the network, N(S) that it expects

static void to_libpri(const unsigned char *octets, int length) {
    int place = (inbox_first + inbox_count++) % HELD;
    if (inbox_count > HELD || length > LONGEST + 4) exit(1);
    memcpy(inbox[place], octets, length);
    inbox_length[place] = length;
}

static int read_frame(struct pri *pri, void *buffer, int room) {
    (void)pri;
    if (inbox_count == 0) return 0;
    int length = inbox_length[inbox_first];
    if (length + 2 > room) exit(1);
    memcpy(buffer, inbox[inbox_first], length);
    memset((char *)buffer + length, 0, 2); // the frame check sequence, which libpri does not look at
    inbox_first = (inbox_first + 1) % HELD;
    inbox_count--;
    return length + 2;
}

static void send_all(const unsigned char *octets, size_t length) {
    while (length > 0) {
        ssize_t taken = send(link_fd, octets, length, MSG_NOSIGNAL);
        if (taken <= 0) return; // the next read finds the end
        octets += taken;
        length -= taken;
    }
}

static void send_frame(int kind, const unsigned char *contents, size_t length) {
    unsigned char frame[3 + LONGEST] = {kind, length >> 8, length & 0xFF};
    memcpy(frame + 3, contents, length);
    send_all(frame, 3 + length);
}

static int write_frame(struct pri *pri, void *buffer, int length) {
    (void)pri;
    unsigned char *frame = buffer;
    int octets = length - 2;
    if ((frame[2] & 1) == 0) { // an information frame: a message of Q.931
        received_number = (received_number + 1) % 128;
        unsigned char ready[] = {0x00, 0x01, 0x01, received_number << 1};
        to_libpri(ready, sizeof ready);
        count_complaint(frame + 4, octets - 4);
        if (octets > 4 && octets - 4 <= LONGEST) send_frame(MESSAGE, frame + 4, octets - 4);
    } else if ((frame[2] & 0xEF) == 0x6F) { // SABME: answered by UA
        sent_number = received_number = 0;
        unsigned char agreed[] = {0x00, 0x01, 0x63 | (frame[2] & 0x10)};
        to_libpri(agreed, sizeof agreed);
    } else if (frame[2] == 0x01 && (frame[0] & 2) == 0 && (frame[3] & 1)) { // it asks whether this side is there
        unsigned char ready[] = {0x00, 0x01, 0x01, received_number << 1 | 1};
        to_libpri(ready, sizeof ready);
    }
    return length;
}

static void message_to_libpri(const unsigned char *message, int length) {
    unsigned char frame[4 + LONGEST] = {0x02, 0x01, sent_number << 1, received_number << 1};
    memcpy(frame + 4, message, length);
    sent_number = (sent_number + 1) % 128;
    count_complaint(message, length);
    to_libpri(frame, 4 + length);
}

static void run_events(struct pri *pri, uint32_t moment) {
    while (inbox_count > 0) {
        pri_event *event = pri_check_event(pri);
        if (event) handle(pri, event, moment);
    }
}

// ---- the link
static void connect_to(int port) {
    struct sockaddr_in address = {.sin_family = AF_INET, .sin_port = htons(port), .sin_addr.s_addr = htonl(INADDR_LOOPBACK)};
    for (int tries = 0; tries < 200; tries++) {
        link_fd = socket(AF_INET, SOCK_STREAM, 0);
        if (connect(link_fd, (struct sockaddr *)&address, sizeof address) == 0) return;
        close(link_fd);
        usleep(50000);
    }
    exit(1); // nobody listens
}

static int receive(unsigned char *octets, size_t length) {
    return length == 0 || recv(link_fd, octets, length, MSG_WAITALL) == (ssize_t)length;
}

// The connection, up to its end. Answers whether the day is over.
static int run_day(struct pri *pri) {
    unsigned char head[3], contents[LONGEST];
    uint32_t moment = 0;
    while (receive(head, 3)) {
        int length = head[1] << 8 | head[2];
        if (head[0] == END_OF_DAY) return 1;
        if (length > LONGEST || !receive(contents, length)) return 0;
        if (head[0] == MESSAGE) {
            message_to_libpri(contents, length);
            run_events(pri, moment);
            continue;
        }
        moment = (uint32_t)contents[0] << 24 | contents[1] << 16 | contents[2] << 8 | contents[3];
        do_what_is_due(pri, moment);
        run_events(pri, moment);
        send_frame(END_OF_TURN, contents, 4);
    }
    return 0;
}

int main(int count, char **words) {
    if (count < 3 || !read_offers(count - 3, words + 3)) return 2;
    policy = words[2];
    struct pri *pri = pri_new_cb(0, PRI_CPE, PRI_SWITCH_EUROISDN_E1, read_frame, write_frame, NULL);
    run_events(pri, 0);
    connect_to(atoi(words[1]));
    int is_over = run_day(pri);
    print_counts();
    return is_over ? 0 : 1;
}
