/* The command that holds sessions by radio, with a TNC that speaks AGW. */
#ifndef RADIO_H
#define RADIO_H

#include "options.h"
#include "say.h"

#define RADIO_WORDS 2      /* of its command: [HOST:]PORT MYCALL .. */
#define RADIO_CALL_WORDS 2 /* .. and where we call: CALL via, before the digipeaters */

enum exit_code radio_serve(const struct options *options);

#endif
