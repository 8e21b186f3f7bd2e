/* The tables of a base, and how an older base becomes one of today. */
#ifndef SCHEMA_H
#define SCHEMA_H

#include "base.h"

#define BASE_VERSION 7

/* The version that the file has; 0 if there is nothing in it yet, -1 after saying that it is no base, a newer one, or can't be read. */
int schema_version(struct base *base);
/* Takes the steps from a version to today's, within a transaction that the caller begins and commits. */
bool schema_lift(struct base *base, int version);

#endif
