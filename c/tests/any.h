/* For tests: memory for a handle of any type, since after a cast a handle of one type may reach a call of another. */
#ifndef ANY_H
#define ANY_H

#include "codec_payload.h"

typedef union {
    cpay_packetizer packetizer;
    cpay_buffer buffer;
    cpay_depacketizer depacketizer;
    cpay_red_sender red_sender;
    cpay_sender sender;
    cpay_history history;
    cpay_forwarder forwarder;
    cpay_receiver receiver;
    cpay_adaptive_wait adaptive_wait;
    cpay_freezes freezes;
    cpay_transport_reporter transport_reporter;
    cpay_sent_packets sent_packets;
    cpay_session session;
} any;

#define ANY_INIT { CPAY_INIT }

#endif
