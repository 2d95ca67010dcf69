/*
 * Morphelai: the connectionless RPC protocol of C706, proved. What a host in C or C++ calls.
 * docs/USING.md is the guide; link target/staticlib/libmorphelai.a, which `tools/archive` makes.
 *
 * Rules for hosts:
 * - Memory is lent as a pointer and a length. Nothing is kept of it after the call, nothing is allocated.
 * - Buffers lent in one call must not overlap, but for those that are only read (const) among themselves.
 * - One thread at a time for a record and what is lent with it. Different records need no lock.
 * - NULL is fine with length 0. Nothing is asked of alignment.
 * - Lengths are judged, not trusted: a wrong one is answered 1. But each pointer must lead to so many bytes.
 * - A refusal (an answer that is not 0) leaves every lent byte as it was, sends nothing and tells nothing.
 */
#ifndef MORPHELAI_H
#define MORPHELAI_H

#include <stddef.h>
#include <stdint.h>

#ifdef __cplusplus
extern "C" {
#endif

/* ---- Sizes in bytes, and the most fragments that a message has */
enum {
    MORPHELAI_RECORD_SIZE = 272,    /* a record of either side, exactly */
    MORPHELAI_SLOTS_SIZE = 44544,   /* the slot buffer, exactly: fragments received lie in it */
    MORPHELAI_PDU_SIZE = 1472,      /* the PDU buffer, exactly; receive datagrams into more than this */
    MORPHELAI_HEADER_SIZE = 80,     /* the header of a PDU */
    MORPHELAI_BODY_SIZE = 1392,     /* the body of a fragment, at most; part f lies at f times this */
    MORPHELAI_MESSAGE_SIZE = 44544, /* a request or a reply, at most */
    MORPHELAI_FRAGMENTS = 32,       /* the fragments of a message, at most: numbers 0 to 31 */
    MORPHELAI_UUID_SIZE = 16        /* activity, object, interface; little-endian form */
};

/* ---- Answers: 0, or why the event was refused. The lowest that applies is given. */
enum {
    MORPHELAI_DONE = 0,                   /* done: the bytes of the record are those of the next one */
    MORPHELAI_WRONG_LENGTH = 1,           /* a wrong length (buffer, UUID, message), or idempotent above 1 */
    MORPHELAI_BROKEN_RECORD = 2,          /* the bytes are no record, or it breaks the rules of records */
    MORPHELAI_SHORT_DATAGRAM = 3,         /* a datagram under 80 bytes */
    MORPHELAI_WRONG_VERSION = 4,          /* its version is not 4 */
    MORPHELAI_UNKNOWN_TYPE = 5,           /* its type is above 10 */
    MORPHELAI_UNKNOWN_REPRESENTATION = 6, /* its data representation is neither 16,0,0 nor 0,0,0 */
    MORPHELAI_AUTHENTICATED = 7,          /* its authentication is not 0 */
    MORPHELAI_WRONG_BODY_LENGTH = 8,      /* a body over 1,392 bytes, or not as long as the header says */
    MORPHELAI_OTHER_ACTIVITY = 9,         /* for another activity */
    MORPHELAI_WRONG_SIDE = 10,            /* a type that is not for this side */
    MORPHELAI_MAYBE_OR_BROADCAST = 11,    /* a request marked maybe or broadcast */
    MORPHELAI_WRONG_FRAGMENT = 12,        /* a fragment number above 31, or not 0 in a lone fragment */
    MORPHELAI_OLD_CALL = 13,              /* client: not of its call; server: of an older one, or a spent request */
    MORPHELAI_MALFORMED_BODY = 14,        /* the body of a fault, reject, fack, cancel or cancel_ack is malformed */
    MORPHELAI_NO_ROW = 15,                /* the state has nothing to do for this event, or no such timer */
    MORPHELAI_REPEATED = 16,              /* a fragment already held, or a repeated request or ping */
    MORPHELAI_CONTRADICTION = 17,         /* it contradicts what is held or what was called */
    MORPHELAI_LATE_TIMER = 18,            /* the timer is not armed with that ticket */
    MORPHELAI_NUMBERS_USED_UP = 19,       /* a start after call number 4294967295 */
    MORPHELAI_TICKETS_USED_UP = 20        /* a timer would be armed, and the last ticket was given */
};

/* ---- Notices: what the stub is told, and what the notice's value then is */
enum {
    MORPHELAI_NOTICE_NONE = 0,     /* nothing */
    MORPHELAI_NOTICE_LAST = 1,     /* client: the whole reply can be taken */
    MORPHELAI_NOTICE_COUNT = 2,    /* client: value parts of the reply can be taken already */
    MORPHELAI_NOTICE_FAULT = 3,    /* client: the call failed, the server's fault has the status value */
    MORPHELAI_NOTICE_REJECT = 4,   /* client: the call was rejected with the status value */
    MORPHELAI_NOTICE_CAUSE = 5,    /* client: given up here, value is a cause */
    MORPHELAI_NOTICE_DISPATCH = 6, /* server: the whole request is there; execute the call now, and only now */
    MORPHELAI_NOTICE_CANCEL = 7    /* server: the client wants the running call to end; a fault may end it, value 0 */
};

/* ---- Causes: why the client gave up. None says that the call was not executed. */
enum {
    MORPHELAI_CAUSE_NO_RESPONSE = 1,  /* WAIT ran out too often */
    MORPHELAI_CAUSE_NO_CALL = 2,      /* the server answered nocall too often */
    MORPHELAI_CAUSE_NO_CANCEL_ACK = 3 /* CANCEL ran out: no cancel_ack with the current number came in time */
};

/* ---- States of a client */
enum {
    MORPHELAI_CLIENT_QUEUED = 0,        /* fresh: no call yet; may start */
    MORPHELAI_CLIENT_SEND_FRAGS = 1,    /* the request is being sent: call transmit; may cancel */
    MORPHELAI_CLIENT_DISPATCHED = 2,    /* all sent, no reply yet; WAIT runs; may cancel */
    MORPHELAI_CLIENT_RECEIVE_FRAGS = 3, /* a part of the reply is there; WAIT runs; may cancel */
    MORPHELAI_CLIENT_ACK_PENDING = 4,   /* the whole reply is there, an ack is owed; ACK runs; may start */
    MORPHELAI_CLIENT_COMPLETE = 5,      /* the call is over; may start */
    MORPHELAI_CLIENT_FAULT = 6          /* the call has failed; may start */
};

/* ---- States of a server */
enum {
    MORPHELAI_SERVER_IDLE_FRESH = 0,      /* no call yet */
    MORPHELAI_SERVER_IDLE_SPENT = 1,      /* the call is over, and is not executed again */
    MORPHELAI_SERVER_IDLE_REPEATABLE = 2, /* the call is over; idempotent, so a repeated request executes it again */
    MORPHELAI_SERVER_COLLECT = 3,         /* a part of the request is there */
    MORPHELAI_SERVER_RUNNING = 4,         /* dispatched: owes one reply or one fault */
    MORPHELAI_SERVER_REPLYING = 5,        /* the reply is being sent: call transmit */
    MORPHELAI_SERVER_HELD_DATA = 6,       /* the reply is sent, and kept to be sent again; RESEND runs */
    MORPHELAI_SERVER_HELD_FAULT = 7       /* the same of a fault */
};

/* ---- Kinds of timers */
enum {
    MORPHELAI_WAIT = 1,   /* client: how long to wait for the server before a ping */
    MORPHELAI_ACK = 2,    /* client: how long an ack may be put off */
    MORPHELAI_RESEND = 3, /* server: how long to wait for an ack before the reply is sent again */
    MORPHELAI_CANCEL = 4  /* client: how long to wait for a cancel_ack before the call is given up */
};

/* ---- Places in a header as morphelai_read gives it, for hosts that sort datagrams by activity */
enum {
    MORPHELAI_HEADER_TYPE = 1,     /* one byte: 0 request, 1 ping, 2 response, 3 fault, 4 working, 5 nocall,
                                      6 reject, 7 ack, 8 cancel, 9 fack, 10 cancel_ack */
    MORPHELAI_HEADER_ACTIVITY = 40 /* 16 bytes */
};

/* ---- Events of the client. Each returns a result, see below; part a length. `slots` and `pdu` are lent whole. */

/* Makes the record of a new activity. Tickets are given above `tickets`: 0 for the first record of a host. */
uint64_t morphelai_client_fresh(uint8_t *record, size_t record_length, const uint8_t *activity, size_t activity_length,
                                uint64_t tickets);

/* Starts the next call, with a request of message_length bytes. idempotent is 0 or 1. Look at the answer. */
uint64_t morphelai_client_start(uint8_t *record, size_t record_length, uint8_t idempotent,
                                const uint8_t *object_uuid, size_t object_length, const uint8_t *interface_uuid,
                                size_t interface_length,
                                uint32_t version, uint16_t operation, uint32_t message_length);

/* Sends the next fragment of the request, in SEND_FRAGS. */
uint64_t morphelai_client_transmit(uint8_t *record, size_t record_length, const uint8_t *message,
                                   size_t message_length, uint8_t *pdu, size_t pdu_length);

/* A datagram came from the server. */
uint64_t morphelai_client_arrive(uint8_t *record, size_t record_length, const uint8_t *datagram,
                                 size_t datagram_length, uint8_t *slots, size_t slots_length, uint8_t *pdu,
                                 size_t pdu_length);

/* A timer ran out: MORPHELAI_WAIT, MORPHELAI_ACK or MORPHELAI_CANCEL, with the ticket that it was started with. */
uint64_t morphelai_client_timer(uint8_t *record, size_t record_length, uint8_t kind, uint64_t ticket, uint8_t *pdu,
                                size_t pdu_length);

/* Asks the server to end the call, in SEND_FRAGS, DISPATCHED and RECEIVE_FRAGS: sends a cancel with the next number,
   from 1 in each call, and arms CANCEL if it is not armed. The call goes on until a notice tells its end. */
uint64_t morphelai_client_cancel(uint8_t *record, size_t record_length, uint8_t *pdu, size_t pdu_length);

/* The length of part `number` of the reply, which lies in slots at number * MORPHELAI_BODY_SIZE; 0: none or empty. */
uint64_t morphelai_client_part(const uint8_t *record, size_t record_length, uint16_t number, const uint8_t *slots,
                               size_t slots_length);

/* ---- Events of the server */

/* Makes the record of an activity that was never served before. boot is sent in every PDU. */
uint64_t morphelai_server_fresh(uint8_t *record, size_t record_length, const uint8_t *activity, size_t activity_length,
                                uint32_t boot, uint64_t tickets);

/* A datagram came from the client. Its notice may be MORPHELAI_NOTICE_DISPATCH or MORPHELAI_NOTICE_CANCEL. */
uint64_t morphelai_server_arrive(uint8_t *record, size_t record_length, const uint8_t *datagram,
                                 size_t datagram_length, uint8_t *slots, size_t slots_length, uint8_t *pdu,
                                 size_t pdu_length);

/* Answers the running call with a reply of message_length bytes, which transmit then sends. Look at the answer. */
uint64_t morphelai_server_reply(uint8_t *record, size_t record_length, uint32_t message_length);

/* Answers the running call with a fault. */
uint64_t morphelai_server_fault(uint8_t *record, size_t record_length, uint32_t status, uint8_t *pdu,
                                size_t pdu_length);

/* Sends the next fragment of the reply, in REPLYING. */
uint64_t morphelai_server_transmit(uint8_t *record, size_t record_length, const uint8_t *message,
                                   size_t message_length, uint8_t *pdu, size_t pdu_length);

/* A timer ran out: MORPHELAI_RESEND, with the ticket that it was started with. */
uint64_t morphelai_server_timer(uint8_t *record, size_t record_length, uint8_t kind, uint64_t ticket, uint8_t *pdu,
                                size_t pdu_length);

/* The length of part `number` of the request, as at the client. */
uint64_t morphelai_server_part(const uint8_t *record, size_t record_length, uint16_t number, const uint8_t *slots,
                               size_t slots_length);

/* ---- PDUs by themselves */

/* Reads a datagram: its header in the little-endian form; byte 4 is 16 where the sender was little-endian, else 0. */
uint64_t morphelai_read(const uint8_t *datagram, size_t datagram_length, uint8_t *header, size_t header_length);

/* Writes a PDU. Version, representation and body length are set here, whatever stands in the header. */
uint64_t morphelai_write(const uint8_t *header, size_t header_length, const uint8_t *body, size_t body_length,
                         uint8_t *pdu, size_t pdu_length);

/* MORPHELAI_RECORD_SIZE, as the linked library has it. */
size_t morphelai_record_size(void);

/* ---- What a result holds */

/* The answer: MORPHELAI_DONE, or why the event was refused. */
static inline uint8_t morphelai_answer(uint64_t result) { return (uint8_t)(result & 255u); }

/* The notice for the stub. */
static inline uint8_t morphelai_notice(uint64_t result) { return (uint8_t)(result >> 8 & 255u); }

/* The value of the notice: a count, a status or a cause. */
static inline uint32_t morphelai_notice_value(uint64_t result) { return (uint32_t)(result >> 32); }

/* The length of the PDU to send, at the front of the PDU buffer; 0: nothing is to be sent. */
static inline size_t morphelai_pdu_length(uint64_t result) { return (size_t)(result >> 16 & 65535u); }

/* ---- What a host may read in a record. The rest is the library's. */

/* A little-endian number of `size` bytes. */
static inline uint64_t morphelai_number_at(const uint8_t *bytes, size_t size) {
    uint64_t number = 0;
    while (size > 0) number = number << 8 | bytes[--size];
    return number;
}

/* The state: MORPHELAI_CLIENT_... or MORPHELAI_SERVER_... */
static inline uint8_t morphelai_state(const uint8_t *record) { return record[0]; }

/* Which of its side's timers this kind is: WAIT and RESEND are the first. */
static inline size_t morphelai_timer_place(uint8_t kind) {
    return kind == MORPHELAI_ACK ? 1 : kind == MORPHELAI_CANCEL ? 2 : 0;
}

/* Whether the timer of this kind, one of the record's side, is armed, 1 or 0. */
static inline int morphelai_armed(const uint8_t *record, uint8_t kind) {
    return record[64 + morphelai_timer_place(kind)] == 1;
}

/* The ticket that the timer of this kind is armed with, where it is. */
static inline uint64_t morphelai_ticket(const uint8_t *record, uint8_t kind) {
    return morphelai_number_at(record + 40 + 8 * morphelai_timer_place(kind), 8);
}

/* The call: its number, operation, interface with version, and object. At a server, those of the call dispatched. */
static inline uint32_t morphelai_call_number(const uint8_t *record) {
    return (uint32_t)morphelai_number_at(record + 16, 4);
}
static inline uint16_t morphelai_operation(const uint8_t *record) {
    return (uint16_t)morphelai_number_at(record + 14, 2);
}
static inline uint32_t morphelai_version(const uint8_t *record) {
    return (uint32_t)morphelai_number_at(record + 20, 4);
}
static inline const uint8_t *morphelai_object(const uint8_t *record) { return record + 112; }
static inline const uint8_t *morphelai_interface(const uint8_t *record) { return record + 128; }

#ifdef __cplusplus
}
#endif

#endif
