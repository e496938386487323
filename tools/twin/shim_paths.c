/* The calls on paths and offers that the twin makes, without structs, as in shim.c. */
#include "codec_payload.h"
#include <stdlib.h>

enum { MOST_CHOICES = 16, MOST_LOST = 64, ROUND_TRIP = 40000 };

/* A path whose other settings are the defaults. */
void *twin_path(uint64_t now, uint64_t bound) {
    cpay_path_settings settings;
    cpay_path_settings_init(&settings);
    settings.bound = bound;
    cpay_path *made = calloc(1, sizeof *made);
    if (made && !cpay_path_new(made, now, &settings)) return made;
    free(made);
    return NULL;
}

uint32_t twin_path_push(void *path, uint32_t kind, uint32_t size, uint64_t id) {
    const cpay_path_packet packet = { id, size, (cpay_path_kind)kind };
    return cpay_path_push(path, &packet);
}

/* The id, size, kind and number of the packet. */
uint32_t twin_path_pop(void *path, uint64_t now, uint64_t values[4]) {
    cpay_path_leaving leaving = { { 0 } };
    cpay_status status = cpay_path_pop(path, now, &leaving);
    values[0] = leaving.packet.id;
    values[1] = leaving.packet.size;
    values[2] = leaving.packet.kind;
    values[3] = leaving.number;
    return status;
}

uint32_t twin_path_remove(void *path, uint32_t kind, uint64_t values[3]) {
    cpay_path_packet packet = { 0 };
    cpay_status status = cpay_path_remove(path, (cpay_path_kind)kind, &packet);
    values[0] = packet.id;
    values[1] = packet.size;
    values[2] = packet.kind;
    return status;
}

uint32_t twin_path_next_deadline(void *path, uint64_t *deadline) { return cpay_path_next_deadline(path, deadline); }

uint32_t twin_path_resend(void *path, uint64_t now, uint16_t number, uint32_t size, uint32_t *answer) {
    cpay_resend_answer given = CPAY_RESEND_NOW;
    cpay_status status = cpay_path_resend(path, now, number, size, ROUND_TRIP, &given);
    *answer = given;
    return status;
}

uint32_t twin_path_feedback(void *path, uint64_t now, const uint8_t *rtcp, size_t rtcp_len) {
    return cpay_path_feedback(path, now, ROUND_TRIP, rtcp, rtcp_len, false, 0);
}

/* `rates` has the rate of each choice, and the rate to begin it. */
uint32_t twin_path_choose(void *path, uint64_t now, const uint64_t *rates, size_t count, uint64_t order[4]) {
    cpay_path_choice choices[MOST_CHOICES];
    cpay_path_order_info said = { 0 };
    for (size_t i = 0; i < count && i < MOST_CHOICES; i++) {
        choices[i].rate = rates[2 * i];
        choices[i].begin = rates[2 * i + 1];
    }
    cpay_status status = cpay_path_choose(path, now, choices, count, &said);
    order[0] = said.choice;
    order[1] = said.padding;
    order[2] = said.fell;
    order[3] = said.rose;
    return status;
}

/* What the path says of itself. */
uint32_t twin_path_known(void *path, uint64_t values[9]) {
    cpay_path_state_info state = { 0 };
    cpay_path_estimate_info known = { 0 };
    cpay_status status = cpay_path_state(path, &state);
    if (!status) status = cpay_path_estimate(path, &known);
    values[0] = state.estimate;
    values[1] = state.waiting;
    values[2] = state.choice;
    values[3] = known.carries;
    values[4] = known.standing;
    values[5] = known.usual_losses;
    values[6] = known.trial_rate;
    values[7] = known.has_trial;
    values[8] = known.is_draining;
    return status;
}

uint32_t twin_path_lost(void *path, const uint8_t *rtcp, size_t rtcp_len, uint16_t *numbers, size_t *count) {
    return cpay_path_lost(path, rtcp, rtcp_len, false, 0, numbers, MOST_LOST, count);
}

uint32_t twin_path_take_back(void *path, uint16_t number) { return cpay_path_take_back(path, number); }

void twin_path_free(void *path) {
    cpay_path_free(path);
    free(path);
}

/* An offer with the defaults. */
void *twin_offer(void) {
    cpay_rate_offer_settings settings;
    cpay_rate_offer_settings_init(&settings);
    cpay_rate_offer *made = calloc(1, sizeof *made);
    if (made && !cpay_rate_offer_new(made, &settings)) return made;
    free(made);
    return NULL;
}

uint32_t twin_offer_arrived(void *offer, uint64_t now, uint32_t send_time, uint32_t size) {
    return cpay_rate_offer_arrived(offer, now, send_time, size);
}

uint32_t twin_offer_arrived_by(void *offer, uint64_t now, uint64_t sent, uint32_t size) {
    return cpay_rate_offer_arrived_by(offer, now, sent, size);
}

uint32_t twin_offer_lost(void *offer) { return cpay_rate_offer_lost(offer); }

uint32_t twin_offer_set_wants(void *offer, uint64_t wants) { return cpay_rate_offer_set_wants(offer, wants); }

uint32_t twin_offer_take_due(void *offer, uint64_t now, uint64_t round_trip, uint64_t *rate) {
    return cpay_rate_offer_take_due(offer, now, round_trip, rate);
}

void twin_offer_free(void *offer) {
    cpay_rate_offer_free(offer);
    free(offer);
}
