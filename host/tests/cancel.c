/* One cancelled call of a client and a server in memory, in C: what the header's constants and helpers say of it. */
#include <stdio.h>
#include <string.h>

#include "morphelai.h"

static uint8_t client[MORPHELAI_RECORD_SIZE], server[MORPHELAI_RECORD_SIZE], slots[MORPHELAI_SLOTS_SIZE];
static uint8_t pdu[MORPHELAI_PDU_SIZE], sent[MORPHELAI_PDU_SIZE];
static const uint8_t uuid[MORPHELAI_UUID_SIZE] = {7};
static int failures;

#define CHECK(claim) ((claim) ? (void)0 : (void)(failures++, printf("line %d: not so: %s\n", __LINE__, #claim)))

/* Keeps the PDU of a result, and gives its length. */
static size_t keep(uint64_t result) {
    CHECK(morphelai_answer(result) == MORPHELAI_DONE);
    memcpy(sent, pdu, sizeof sent);
    return morphelai_pdu_length(result);
}

static uint64_t to_server(size_t length) {
    return morphelai_server_arrive(server, sizeof server, sent, length, slots, sizeof slots, pdu, sizeof pdu);
}

static uint64_t cancel_timer(uint64_t ticket) {
    return morphelai_client_timer(client, sizeof client, MORPHELAI_CANCEL, ticket, pdu, sizeof pdu);
}

/* Each timer has its own place: CANCEL is armed first, with ticket 1, then WAIT with 2. */
static void a_client_has_three_timers(void) {
    CHECK(!morphelai_armed(client, MORPHELAI_WAIT) && !morphelai_armed(client, MORPHELAI_ACK));
    CHECK(morphelai_armed(client, MORPHELAI_CANCEL) && morphelai_ticket(client, MORPHELAI_CANCEL) == 1);
    size_t length = keep(morphelai_client_transmit(client, sizeof client, uuid, 1, pdu, sizeof pdu));
    CHECK(morphelai_notice(to_server(length)) == MORPHELAI_NOTICE_DISPATCH);
    CHECK(morphelai_armed(client, MORPHELAI_WAIT) && morphelai_ticket(client, MORPHELAI_WAIT) == 2);
    CHECK(!morphelai_armed(client, MORPHELAI_ACK));
    CHECK(morphelai_armed(client, MORPHELAI_CANCEL) && morphelai_ticket(client, MORPHELAI_CANCEL) == 1);
}

/* The stub is told of the second cancel, and its fault arms RESEND, which is the server's only timer. */
static void a_server_has_one(void) {
    uint64_t result = to_server(keep(morphelai_client_cancel(client, sizeof client, pdu, sizeof pdu)));
    CHECK(morphelai_notice(result) == MORPHELAI_NOTICE_CANCEL && morphelai_notice_value(result) == 0);
    CHECK(morphelai_pdu_length(result) == 92 && pdu[MORPHELAI_HEADER_TYPE] == 10);
    CHECK(!morphelai_armed(server, MORPHELAI_RESEND));
    result = morphelai_server_fault(server, sizeof server, 0x1c00000du, pdu, sizeof pdu);
    CHECK(morphelai_answer(result) == MORPHELAI_DONE);
    CHECK(morphelai_armed(server, MORPHELAI_RESEND) && morphelai_ticket(server, MORPHELAI_RESEND) == 1);
    CHECK(!morphelai_armed(server, MORPHELAI_CANCEL) && !morphelai_armed(server, MORPHELAI_ACK));
}

/* Neither answer comes: CANCEL runs out, and nothing is armed any more. */
static void without_an_ack_the_call_is_given_up(void) {
    CHECK(morphelai_answer(cancel_timer(2)) == MORPHELAI_LATE_TIMER);
    uint64_t result = cancel_timer(1);
    CHECK(morphelai_notice(result) == MORPHELAI_NOTICE_CAUSE);
    CHECK(morphelai_notice_value(result) == MORPHELAI_CAUSE_NO_CANCEL_ACK);
    CHECK(morphelai_state(client) == MORPHELAI_CLIENT_FAULT);
    CHECK(!morphelai_armed(client, MORPHELAI_WAIT) && !morphelai_armed(client, MORPHELAI_CANCEL));
    result = morphelai_client_cancel(client, sizeof client, pdu, sizeof pdu);
    CHECK(morphelai_answer(result) == MORPHELAI_NO_ROW && morphelai_pdu_length(result) == 0);
}

int main(void) {
    morphelai_client_fresh(client, sizeof client, uuid, sizeof uuid, 0);
    morphelai_server_fresh(server, sizeof server, uuid, sizeof uuid, 1, 0);
    morphelai_client_start(client, sizeof client, 0, uuid, sizeof uuid, uuid, sizeof uuid, 1, 0, 1);
    CHECK(keep(morphelai_client_cancel(client, sizeof client, pdu, sizeof pdu)) == 88);
    a_client_has_three_timers();
    a_server_has_one();
    without_an_ack_the_call_is_given_up();
    printf("%d not so\n", failures);
    return failures > 0;
}
