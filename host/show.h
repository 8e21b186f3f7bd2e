/* What tables on standard output share. */
#ifndef SHOW_H
#define SHOW_H

#include "home.h"

/* Padded to a width, and by one space at least. */
void show_field(struct part field, size_t width);
/* Seconds since 1970 as UTC has them. */
void show_time(long long seconds);
/* A row of a table of home mailboxes, and the table's head. */
void show_home_head(void);
void show_home(const struct home *home);
/* Name, zip and town, as an M record has them. */
void show_home_person(const struct home *home);
/* Nobody reads on where output fails, or we are asked to stop. */
bool show_goes_on(void);

#endif
