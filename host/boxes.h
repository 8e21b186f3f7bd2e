/* The commands on the boxes of a base. */
#ifndef BOXES_H
#define BOXES_H

#include "options.h"
#include "say.h"

enum exit_code boxes_import(const struct options *options);
enum exit_code boxes_export(const struct options *options);
enum exit_code boxes_list(const struct options *options);
enum exit_code boxes_trace(const struct options *options);
enum exit_code boxes_whitepages(const struct options *options);
enum exit_code boxes_home(const struct options *options);
enum exit_code boxes_sessions(const struct options *options);
enum exit_code boxes_release(const struct options *options);

#endif
