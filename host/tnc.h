/* A TNC that speaks AGW over TCP: frames to it and from it, for one callsign on one of its radios. */
#ifndef TNC_H
#define TNC_H

#include "frame.h"
#include "moment.h"

struct tnc {
    int socket;
    struct bytes in, out; /* what came and nobody has heard yet; what the system hasn't taken yet */
    uint8_t radio;
    struct station us;
    char gone[96]; /* why it is of no more use, in words; empty while it is */
};

/* Connects, sees that it has this radio and registers our callsign there. False after it has said what is wrong; close it then, too. */
bool tnc_open(struct tnc *tnc, const char *address, uint8_t radio, const struct station *us);
/* Closes the connection; what hasn't left is lost. */
void tnc_close(struct tnc *tnc);

/* A frame from us, on our radio. */
void tnc_send(struct tnc *tnc, uint8_t kind, const struct station *to, struct part data);
/* The same on any radio. */
void tnc_send_on(struct tnc *tnc, uint8_t radio, uint8_t kind, const struct station *to, struct part data);
/* Waits so long, or until something came or left; not on, if `stops`, when we are asked to stop. */
void tnc_wait(struct tnc *tnc, milliseconds time, bool stops);
/* The first frame that came whole; false if there is none. It stays until it is passed over. */
bool tnc_hear(struct tnc *tnc, struct frame *frame);
void tnc_pass(struct tnc *tnc);

#endif
