/*
 * A whole controller over UDP, in C99 and POSIX: copy it, and put your own work into `operate`.
 *
 *   controller_c [PORT [SECONDS [WORK]]]
 *
 * It listens on 127.0.0.1 (port 0, the default: any that is free). It replies to every operation of its interface with
 * the request's own bytes, but answers operation 2 and every other interface by a fault. Each operation takes WORK
 * milliseconds (0), and a call that is cancelled before is ended by a fault. It ends after SECONDS, or never.
 * docs/USING.md explains it.
 */
#define _POSIX_C_SOURCE 200809L
#include <arpa/inet.h>
#include <errno.h>
#include <poll.h>
#include <stdbool.h>
#include <stdio.h>
#include <string.h>
#include <sys/socket.h>
#include <time.h>

#include "morphelai.h"

enum { ACTIVITIES = 64, RESEND_MILLISECONDS = 300, VERSION = 1, FAULTED_OPERATION = 2, MOST = 1000000 };
#define FAULT_STATUS 0x1c010003u
#define CANCELLED_STATUS 0x1c00000du /* nca_s_fault_cancel of C706 */

/* The interface that is served, in little-endian form. */
static const uint8_t interface[MORPHELAI_UUID_SIZE] = {0x56, 0x41, 0x4c, 0x56, 0x45, 0x43, 0x0e, 0x47,
                                                       0x9d, 0x3b, 0x6d, 0x6f, 0x72, 0x70, 0x68, 0x65};

/* What a host keeps for each activity. */
struct activity {
    uint8_t uuid[MORPHELAI_UUID_SIZE];
    uint8_t record[MORPHELAI_RECORD_SIZE];
    uint8_t slots[MORPHELAI_SLOTS_SIZE];
    uint8_t reply[MORPHELAI_MESSAGE_SIZE];
    size_t reply_length;
    struct sockaddr_in console;
    bool working;    /* whether the call that was dispatched is still worked on, */
    int64_t done;    /* and when that is done */
    bool ticking;    /* whether our timer for RESEND runs, */
    uint64_t ticket; /* with which ticket it was started, */
    int64_t due;     /* and when it runs out */
};

/* A place is never given up, so no activity gets a second fresh record while this runs (docs/USING.md: restarts). */
static struct activity activities[ACTIVITIES];
static size_t activity_count;
static uint8_t pdu[MORPHELAI_PDU_SIZE], request[MORPHELAI_MESSAGE_SIZE];
static int udp;
static uint32_t boot;
static long work;
static unsigned long executed, cancelled;

static int64_t now(void) {
    struct timespec time;
    clock_gettime(CLOCK_MONOTONIC, &time);
    return (int64_t)time.tv_sec * 1000 + time.tv_nsec / 1000000;
}

/* After every event: its PDU is sent, our timer follows the ticket. What the system does not send counts as lost. */
static void settle(struct activity *a, uint64_t result) {
    size_t length = morphelai_pdu_length(result);
    if (length > 0) sendto(udp, pdu, length, 0, (const struct sockaddr *)&a->console, sizeof a->console);
    bool armed = morphelai_armed(a->record, MORPHELAI_RESEND);
    uint64_t ticket = morphelai_ticket(a->record, MORPHELAI_RESEND);
    bool runs_on = a->ticking && a->ticket == ticket;
    if (armed && !runs_on) a->due = now() + RESEND_MILLISECONDS;
    a->ticking = armed;
    a->ticket = ticket;
}

/* Joins the parts of the request that was dispatched. A part may be empty, so all 32 are asked for. */
static size_t take_request(const struct activity *a) {
    size_t length = 0;
    for (uint16_t part = 0; part < MORPHELAI_FRAGMENTS; part++) {
        size_t size = (size_t)morphelai_server_part(a->record, sizeof a->record, part, a->slots, sizeof a->slots);
        memcpy(request + length, a->slots + (size_t)part * MORPHELAI_BODY_SIZE, size);
        length += size;
    }
    return length;
}

/* The shop's own work. It writes the reply and its length; false: the call is answered by a fault. What is called is
   in the record: an operation means nothing without its interface. */
static bool operate(const uint8_t *record, size_t request_length, uint8_t *reply, size_t *reply_length) {
    if (memcmp(morphelai_interface(record), interface, sizeof interface) != 0) return false;
    if (morphelai_version(record) != VERSION || morphelai_operation(record) == FAULTED_OPERATION) return false;
    memcpy(reply, request, request_length);
    *reply_length = request_length;
    return true;
}

/* At the notice dispatch and nowhere else: the call is worked on. While it lasts, the host goes on with its events. */
static void begin(struct activity *a) {
    a->working = true;
    a->done = now() + work;
}

/* The work is done: what the operation does is done whole, here, and answered, once. */
static void execute(struct activity *a) {
    size_t length = 0;
    uint64_t result;
    a->working = false;
    executed++;
    if (operate(a->record, take_request(a), a->reply, &length)) {
        result = morphelai_server_reply(a->record, sizeof a->record, (uint32_t)length);
        if (morphelai_answer(result) == MORPHELAI_DONE) a->reply_length = length;
    } else {
        result = morphelai_server_fault(a->record, sizeof a->record, FAULT_STATUS, pdu, sizeof pdu);
    }
    settle(a, result);
}

/* At the notice cancel: nothing was done yet, so the work is dropped, and a fault says so. A stub that has begun to
   move something brings it to a safe place first, and tells by its status where it is. */
static void stop(struct activity *a) {
    a->working = false;
    cancelled++;
    settle(a, morphelai_server_fault(a->record, sizeof a->record, CANCELLED_STATUS, pdu, sizeof pdu));
}

/* Sends the reply, whole or again. It stops at a refusal, after which the record would stay in REPLYING. */
static void transmit_reply(struct activity *a) {
    uint64_t result = MORPHELAI_DONE;
    while (morphelai_state(a->record) == MORPHELAI_SERVER_REPLYING && morphelai_answer(result) == MORPHELAI_DONE) {
        result = morphelai_server_transmit(a->record, sizeof a->record, a->reply, a->reply_length, pdu, sizeof pdu);
        settle(a, result);
    }
}

static bool is_same(struct sockaddr_in one, struct sockaddr_in other) {
    return one.sin_addr.s_addr == other.sin_addr.s_addr && one.sin_port == other.sin_port;
}

/* The activity of a header that this console sent. A request or a ping that names it first gets it a fresh record. */
static struct activity *activity_of(const uint8_t *header, struct sockaddr_in console) {
    const uint8_t *uuid = header + MORPHELAI_HEADER_ACTIVITY;
    for (size_t i = 0; i < activity_count; i++)
        if (memcmp(activities[i].uuid, uuid, MORPHELAI_UUID_SIZE) == 0)
            return is_same(activities[i].console, console) ? &activities[i] : NULL;
    if (header[MORPHELAI_HEADER_TYPE] > 1 || activity_count == ACTIVITIES) return NULL;
    struct activity *a = &activities[activity_count++];
    a->console = console;
    memcpy(a->uuid, uuid, MORPHELAI_UUID_SIZE);
    morphelai_server_fresh(a->record, sizeof a->record, a->uuid, sizeof a->uuid, boot, 0);
    return a;
}

/* A datagram came. It is received into more than a PDU can have, so that a longer one does not look whole. */
static void receive(void) {
    uint8_t datagram[MORPHELAI_PDU_SIZE + 1], header[MORPHELAI_HEADER_SIZE];
    struct sockaddr_in sender;
    socklen_t size = sizeof sender;
    ssize_t got = recvfrom(udp, datagram, sizeof datagram, MSG_DONTWAIT, (struct sockaddr *)&sender, &size);
    if (got < 0) return;
    size_t length = (size_t)got;
    if (morphelai_answer(morphelai_read(datagram, length, header, sizeof header)) != MORPHELAI_DONE) return;
    struct activity *a = activity_of(header, sender);
    if (a == NULL) return;
    uint64_t result = morphelai_server_arrive(a->record, sizeof a->record, datagram, length, a->slots, sizeof a->slots,
                                              pdu, sizeof pdu);
    settle(a, result);
    if (morphelai_notice(result) == MORPHELAI_NOTICE_DISPATCH) begin(a);
    if (morphelai_notice(result) == MORPHELAI_NOTICE_CANCEL) stop(a);
    transmit_reply(a);
}

/* Our timer ran out: the ticket that it was started with is handed in. A late one is refused and harmless. */
static void run_out(struct activity *a) {
    a->ticking = false;
    settle(a, morphelai_server_timer(a->record, sizeof a->record, MORPHELAI_RESEND, a->ticket, pdu, sizeof pdu));
    transmit_reply(a);
}

/* How long to wait for a datagram: until the next timer or the end of some work, at most a second. */
static int patience(int64_t end) {
    int64_t until = now() + 1000 < end ? now() + 1000 : end;
    for (struct activity *a = activities; a < activities + activity_count; a++) {
        if (a->ticking && a->due < until) until = a->due;
        if (a->working && a->done < until) until = a->done;
    }
    return until > now() ? (int)(until - now()) : 0;
}

/* What has become due: the answer of a call whose work is done, or our timer. */
static void look(struct activity *a) {
    if (a->working && a->done <= now()) {
        execute(a);
        transmit_reply(a);
    }
    if (a->ticking && a->due <= now()) run_out(a);
}

static void serve(int64_t end) {
    while (now() < end) {
        struct pollfd socket_event = {udp, POLLIN, 0};
        poll(&socket_event, 1, patience(end));
        if (socket_event.revents != 0) receive();
        for (size_t i = 0; i < activity_count; i++) look(&activities[i]);
    }
}

/* Whether standard output has taken what was printed. */
static bool is_printed(void) {
    if (fflush(stdout) == 0 && ferror(stdout) == 0) return true;
    fprintf(stderr, "controller_c: cannot write to standard output: %s\n", strerror(errno));
    return false;
}

/* Binds the socket and says where it listens; false: it cannot. */
static bool listens(uint16_t port) {
    struct sockaddr_in own = {.sin_family = AF_INET, .sin_port = htons(port)};
    socklen_t size = sizeof own;
    own.sin_addr.s_addr = htonl(INADDR_LOOPBACK);
    udp = socket(AF_INET, SOCK_DGRAM, 0);
    if (udp < 0 || bind(udp, (const struct sockaddr *)&own, sizeof own) != 0 ||
        getsockname(udp, (struct sockaddr *)&own, &size) != 0) {
        fprintf(stderr, "controller_c: cannot listen on 127.0.0.1:%u: %s\n", port, strerror(errno));
        return false;
    }
    printf("listening on 127.0.0.1:%u\n", ntohs(own.sin_port));
    return is_printed();
}

/* A number of digits alone, at most `most`; -1 for any other text. */
static long number_of(const char *text, long most) {
    long number = *text == 0 ? -1 : 0;
    for (; *text != 0 && number >= 0; text++) {
        number = *text < '0' || *text > '9' ? -1 : 10 * number + (*text - '0');
        if (number > most) number = -1;
    }
    return number;
}

int main(int count, char **words) {
    long port = count > 1 ? number_of(words[1], 65535) : 0;
    long seconds = count > 2 ? number_of(words[2], MOST) : 0;
    work = count > 3 ? number_of(words[3], MOST) : 0;
    if (count > 4 || port < 0 || seconds < 0 || work < 0) {
        fprintf(stderr, "usage: controller_c [PORT [SECONDS [WORK]]], at most 65535, %d and %d\n", MOST, MOST);
        return 2;
    }
    boot = (uint32_t)time(NULL);
    if (!listens((uint16_t)port)) return 1;
    serve(count > 2 ? now() + seconds * 1000 : INT64_MAX);
    if (cancelled > 0) printf("ended %lu calls because of a cancel\n", cancelled);
    printf("executed %lu calls\n", executed);
    return is_printed() ? 0 : 1;
}
