/*
 * Words for the numbers of grasp.h, for logs. Every number has some; what they
 * point at is constant and never NULL.
 */
#ifndef GRASP_TEXT_H
#define GRASP_TEXT_H

#include "grasp.h"

static inline const char *grasp_refusal_text(uint8_t refusal) {
    static const char *const texts[] = {
        "accepted",
        "no bytes, or over 2,048",
        "ends inside an item",
        "reserved head",
        "indefinite length",
        "head longer than needed",
        "nested too deep",
        "bytes after the item",
        "unknown kind",
        "not the shape of a message",
        "name over 64 bytes",
        "text that isn't UTF-8",
        "bad record",
        "no such link, or it is down",
        "clock earlier than the record's",
        "bad relay table",
        "bad own names",
        "output shorter than 2,048 bytes",
        "no message has this description",
        "output shorter than the message",
        "step not allowed",
    };
    return refusal < sizeof texts / sizeof *texts ? texts[refusal] : "unknown refusal";
}

static inline const char *grasp_verdict_text(uint64_t verdict) {
    switch (verdict) {
    case GRASP_VERDICT_OWN:
        return "OWN";
    case GRASP_VERDICT_ANSWER:
        return "ANSWER";
    case GRASP_VERDICT_DUPLICATE:
        return "DUPLICATE";
    case GRASP_VERDICT_LAST:
        return "LAST";
    case GRASP_VERDICT_NOWHERE:
        return "NOWHERE";
    case GRASP_VERDICT_NOROW:
        return "NOROW";
    case GRASP_VERDICT_RELAY:
        return "RELAY";
    case GRASP_VERDICT_NOOP:
        return "NOOP";
    case GRASP_VERDICT_HAND:
        return "HAND";
    default:
        return "unknown verdict";
    }
}

static inline const char *grasp_kind_text(uint64_t kind) {
    switch (kind) {
    case GRASP_KIND_NOOP:
        return "Noop";
    case GRASP_KIND_DISCOVERY:
        return "Discovery";
    case GRASP_KIND_RESPONSE:
        return "Response";
    case GRASP_KIND_REQUEST_NEGOTIATION:
        return "Request negotiation";
    case GRASP_KIND_REQUEST_SYNCHRONIZATION:
        return "Request synchronization";
    case GRASP_KIND_NEGOTIATE:
        return "Negotiate";
    case GRASP_KIND_END:
        return "End";
    case GRASP_KIND_WAIT:
        return "Wait";
    case GRASP_KIND_SYNCH:
        return "Synch";
    case GRASP_KIND_FLOOD:
        return "Flood";
    case GRASP_KIND_INVALID:
        return "Invalid";
    default:
        return "unknown kind";
    }
}

#endif
