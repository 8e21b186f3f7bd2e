/* The commands that hold sessions: each opens a port, sees who is there, and runs a session on it, or one after another. */
#ifndef SERVE_H
#define SERVE_H

#include "options.h"
#include "port.h"
#include "say.h"

/* Whether a base can be used, before somebody is called or waited for; says why not. */
bool serve_base_is_there(const struct options *options);
/* All that happens on an open port, to its hanging up. */
enum exit_code serve_on(struct port *port, const struct options *options, uint8_t role);

enum exit_code serve_call(const struct options *options);
enum exit_code serve_listen(const struct options *options);
enum exit_code serve_stdio(const struct options *options);
enum exit_code serve_serial(const struct options *options);

#endif
