#include "batch.h"

#include "clocks.h"
#include "control.h"

#include <errno.h>
#include <pongulvesz.h>
#include <stdlib.h>
#include <sys/socket.h>

/* One octet more than a request may have (1024): a longer datagram is cut to this length, which the archive refuses by
 * 7, as it would refuse the whole. */
enum { REQUEST_ROOM = 1025 };

struct packet {
    struct sockaddr_storage client;
    union control request_control, reply_control;
    struct iovec request_part, reply_part;
    uint8_t reply[PONGULVESZ_PACKET];
    uint8_t request[REQUEST_ROOM];
};

struct batch {
    unsigned size;
    struct packet *packets;
    struct mmsghdr *requests; /* of the packet with the same number */
    struct mmsghdr *replies;  /* those to send, without gaps */
};

/* Lends the packet to recvmmsg; the kernel overwrites the lengths each time. */
static void make_ready(struct packet *packet, struct msghdr *request) {
    *request = (struct msghdr){
        .msg_name = &packet->client,
        .msg_namelen = sizeof packet->client,
        .msg_iov = &packet->request_part,
        .msg_iovlen = 1,
        .msg_control = packet->request_control.octets,
        .msg_controllen = sizeof packet->request_control,
    };
}

void free_batch(struct batch *batch) {
    if (batch == NULL)
        return;
    free(batch->packets);
    free(batch->requests);
    free(batch->replies);
    free(batch);
}

struct batch *new_batch(unsigned size) {
    struct batch *batch = calloc(1, sizeof *batch);
    if (batch == NULL)
        return NULL;
    batch->size = size;
    batch->packets = calloc(size, sizeof *batch->packets);
    batch->requests = calloc(size, sizeof *batch->requests);
    batch->replies = calloc(size, sizeof *batch->replies);
    if (batch->packets == NULL || batch->requests == NULL || batch->replies == NULL) {
        free_batch(batch);
        return NULL;
    }
    for (unsigned i = 0; i < size; i++) {
        struct packet *packet = &batch->packets[i];
        packet->request_part = (struct iovec){packet->request, sizeof packet->request};
        packet->reply_part = (struct iovec){packet->reply, sizeof packet->reply};
        make_ready(packet, &batch->requests[i].msg_hdr);
    }
    return batch;
}

/* Has the archive reply to a request of this length. T3 is read last. Returns the number of the refusal, or 0. */
static uint32_t reply_to(struct packet *packet, size_t length, uint64_t t2, const struct settings *settings) {
    const uint64_t t3 = timestamp_now();
    return pongulvesz_reply(settings->synchronised, settings->leap, settings->precision, settings->identifier,
                            settings->reference, t2, t3, packet->reply, sizeof packet->reply, packet->request, length);
}

/* Puts the reply to a packet among those to send. */
static void put_reply(struct packet *packet, struct msghdr *request, struct msghdr *reply) {
    *reply = (struct msghdr){
        .msg_name = &packet->client,
        .msg_namelen = request->msg_namelen,
        .msg_iov = &packet->reply_part,
        .msg_iovlen = 1,
    };
    set_source(reply, &packet->reply_control, request);
}

/* sendmmsg ends at a message that fails, and fails itself only where that message is the first. So the rest is sent
 * from there on, and a message that fails as the first is left out. */
static void send_replies(int socket, struct mmsghdr *replies, unsigned count, struct counts *counts) {
    unsigned done = 0;
    while (done < count) {
        int sent = sendmmsg(socket, replies + done, count - done, MSG_DONTWAIT);
        if (sent > 0) {
            counts->answered += (unsigned)sent;
            done += (unsigned)sent;
        } else {
            counts->not_sent++;
            done++;
        }
    }
}

void serve(int socket, struct batch *batch, const struct settings *settings, struct counts *counts) {
    int received = recvmmsg(socket, batch->requests, batch->size, MSG_DONTWAIT, NULL);
    if (received < 0) {
        counts->receive_errors += errno != EAGAIN;
        return;
    }
    const uint64_t after_receiving = timestamp_now();
    unsigned replies = 0;
    for (int i = 0; i < received; i++) {
        struct packet *packet = &batch->packets[i];
        struct msghdr *request = &batch->requests[i].msg_hdr;
        const uint64_t stamped = kernel_timestamp(request);
        const uint64_t t2 = stamped != 0 ? stamped : after_receiving;
        const uint32_t number = reply_to(packet, batch->requests[i].msg_len, t2, settings);
        if (number == 0)
            put_reply(packet, request, &batch->replies[replies++].msg_hdr);
        else
            counts->refused[number]++;
        make_ready(packet, request);
    }
    counts->received += (unsigned)received;
    send_replies(socket, batch->replies, replies, counts);
}
