/* replay: what our node would have made of a capture. */
#ifndef REPLAY_H
#define REPLAY_H

#include "options.h"
#include "say.h"

/* Gives DONE if nothing was refused, REFUSED else. No base is touched. */
enum exit_code replay_run(const struct options *options);

#endif
