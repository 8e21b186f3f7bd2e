/* The commands for partners: who may call, and what goes to whom. */
#ifndef PARTNERS_H
#define PARTNERS_H

#include "options.h"
#include "say.h"

enum exit_code partners_list(const struct options *options);
enum exit_code partners_admit(const struct options *options);
enum exit_code partners_dismiss(const struct options *options);
enum exit_code partners_routes(const struct options *options);
enum exit_code partners_route(const struct options *options);
enum exit_code partners_forward(const struct options *options);

#endif
