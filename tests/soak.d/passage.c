#include "passage.h"

#include "clocks.h"
#include "damage.h"
#include "flood.h"
#include "sending.h"
#include "treatment.h"

enum { LONGEST_DELAY = 40000000, HELD_BACK = 100000000 }; /* nanoseconds */

static const uint64_t SECOND = UINT64_C(1) << 32; /* in units */

uint64_t server_clock(const struct link *link) {
    uint64_t now = system_nanoseconds(), from_1900_to_1970 = 2208988800;
    uint64_t fraction = ((now % 1000000000) << 32) / 1000000000;
    return ((now / 1000000000 + from_1900_to_1970) << 32 | fraction) + link->constant;
}

/* How long a packet takes: no time, or up to 40 ms and a third of the time in which the query gives up, or, late, up to
 * three times that time. By this packets overtake each other. */
static uint64_t draw_delay(const struct link *link) {
    uint64_t third = link->give_up / 3;
    if (happens(treatment.late)) {
        counts.late++;
        return random_below(3 * link->give_up);
    }
    if (!happens(treatment.delayed))
        return 0;
    counts.delayed++;
    return random_below(third < LONGEST_DELAY ? third : LONGEST_DELAY);
}

static int is_dropped(void) {
    int dropped = happens(treatment.dropped);
    counts.dropped += (uint64_t)dropped;
    return dropped;
}

static int copies(void) {
    int doubled = happens(treatment.doubled);
    counts.doubled += (uint64_t)doubled;
    return 1 + doubled;
}

static int is_damaged(void) {
    int damaged = happens(treatment.damaged);
    counts.damaged += (uint64_t)damaged;
    return damaged;
}

/* One copy of a request. */
static void pass_copy_of_request(struct link *link, const struct packet *request, const struct address *from,
                                 uint64_t came) {
    struct sending sending = {.socket = link->server_side, .packet = *request};
    if (is_dropped())
        return;
    enum damage damage = is_damaged() ? damage_request(&sending.packet) : UNHARMED;
    if (sending.packet.length >= PACKET) {
        struct request kept = {number_at(&sending.packet, TRANSMIT), version_of(request), came, *from};
        keep_request(link, &kept);
        sending.record.kind = damage == REFUSED ? NOTHING : SENT;
        sending.record.link = link->number;
        sending.record.token = kept.token;
        sending.record.came = came;
    }
    counts.to_server++;
    send_later(&sending, draw_delay(link));
}

void pass_request(struct link *link, const struct packet *request, const struct address *from, uint64_t came) {
    counts.requests++;
    if (request->length != PACKET) {
        counts.errors++;
        return;
    }
    link->query = *from;
    link->latest = number_at(request, TRANSMIT);
    struct record record = {.kind = ASKED, .link = link->number, .token = link->latest, .came = came};
    write_record(&record);
    for (int left = copies(); left > 0; left--)
        pass_copy_of_request(link, request, from, came);
    if (happens(treatment.flooded))
        flood_query(link);
}

static struct record record_of_reply(const struct link *link, const struct packet *sent, enum damage damage,
                                     uint64_t came) {
    struct record record = {.kind = damage == REFUSED ? REFUSABLE : REPLIED, .link = link->number, .came = came};
    if (sent->length < PACKET)
        return record;
    record.token = number_at(sent, ORIGINATE);
    record.receive = number_at(sent, RECEIVE);
    record.transmit = number_at(sent, TRANSMIT);
    return record;
}

/* Makes timestamps wrong in a way that the rules let pass where the reply is held back, and that breaks the bound: both
 * are a second late, or receive is 80 ms earlier than the time when the request came to the relay. */
static void alter(struct packet *reply, uint64_t nanoseconds_since_request) {
    uint64_t receive = number_at(reply, RECEIVE), transmit = number_at(reply, TRANSMIT);
    counts.altered++;
    if (happens(5000)) {
        put_number(reply, RECEIVE, receive + SECOND);
        put_number(reply, TRANSMIT, transmit + SECOND);
    } else {
        put_number(reply, RECEIVE, receive - nanoseconds_since_request * 43 / 10 - SECOND * 8 / 100);
    }
}

/* One copy of a reply. The reply to a request whose version was damaged has another version than what was asked for. */
static void pass_copy_of_reply(struct link *link, const struct packet *reply, const struct request *request,
                               uint64_t came) {
    struct sending sending = {.socket = link->query_side, .to = request->from, .packet = *reply};
    enum damage damage = version_of(reply) == request->version ? UNHARMED : REFUSED;
    uint64_t delay = draw_delay(link);
    if (is_dropped())
        return;
    if (damage == UNHARMED && is_damaged()) {
        damage = damage_reply(&sending.packet);
    } else if (damage == UNHARMED && happens(treatment.altered)) {
        alter(&sending.packet, came - request->came);
        delay = HELD_BACK;
    }
    sending.record = record_of_reply(link, &sending.packet, damage, came);
    counts.to_query++;
    send_later(&sending, delay);
}

void draw_next_kiss(struct link *link) {
    uint64_t mean = treatment.kiss_interval * 1000000;
    link->next_kiss = mean == 0 ? UINT64_MAX : steady_nanoseconds() + mean / 2 + random_below(mean);
}

/* Instead of a reply a kiss with its originate timestamp. */
static void pass_kiss(struct link *link, const struct packet *reply, const struct request *request, uint64_t came) {
    struct sending sending = {.socket = link->query_side, .to = request->from, .packet = *reply};
    sending.record = (struct record){.kind = KISSED, .link = link->number, .came = came};
    sending.record.token = number_at(reply, ORIGINATE);
    sending.record.receive = make_kiss(&sending.packet);
    counts.kisses++;
    draw_next_kiss(link);
    send_later(&sending, 0);
}

/* A forgery just before a reply. */
static void send_forgery(struct link *link, const struct request *request) {
    struct sending sending = {.socket = link->query_side, .to = request->from};
    forge_reply(&sending.packet, &link->earlier, link->latest, server_clock(link));
    counts.forged++;
    send_later(&sending, 0);
}

static void add_constant(const struct link *link, struct packet *reply) {
    put_number(reply, REFERENCE, number_at(reply, REFERENCE) + link->constant);
    put_number(reply, RECEIVE, number_at(reply, RECEIVE) + link->constant);
    put_number(reply, TRANSMIT, number_at(reply, TRANSMIT) + link->constant);
}

void pass_reply(struct link *link, struct packet *reply, uint64_t came) {
    const struct request *request = reply->length == PACKET ? request_of(link, number_at(reply, ORIGINATE)) : NULL;
    counts.replies++;
    if (request == NULL) {
        counts.unknown_replies++;
        return;
    }
    add_constant(link, reply);
    keep_reply(&link->earlier, reply);
    if (happens(treatment.forged))
        send_forgery(link, request);
    if (version_of(reply) == request->version && link->next_kiss <= steady_nanoseconds()) {
        pass_kiss(link, reply, request, came);
        return;
    }
    for (int left = copies(); left > 0; left--)
        pass_copy_of_reply(link, reply, request, came);
}
