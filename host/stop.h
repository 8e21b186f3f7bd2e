/* SIGINT and SIGTERM: whoever waits is woken, what is under way is brought to its end, and the program ends by that signal.
 *
 * Whoever waits in poll also waits for stop_descriptor(), and gives up when stop_asked(). */
#ifndef STOP_H
#define STOP_H

void stop_watch(void);
/* The signal that came, or 0. */
int stop_asked(void);
/* Its name in words; only once one came. */
const char *stop_name(void);
/* Can be read from once a signal has come; never read it. -1 before stop_watch. */
int stop_descriptor(void);
/* Says so and ends the program, if a signal came. */
void stop_finish(void);

#endif
