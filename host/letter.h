/* A message file in the form of document 003, section 9: header lines, an empty line, the body, a line end, /EX, a line end; then the next.
 *
 *   To, cc               CALL@MAILBOX; cc has one or more, with commas
 *   From                 CALL, or CALL@MAILBOX
 *   Subject              the title: all after the colon and one space
 *   Message-ID, X-BID    the BID; X-BID decides
 *   X-msgtype, X-BBS-Msg-Type   P or B; P if there is neither
 *   X-BBS-Hold           the message is held
 *   X-Forwarded-To       callsigns of those who have it, with commas
 * and five of our own, for what that form has no place for:
 *   X-Form               plain, message or file; plain if it isn't there
 *   X-File-Name          the name of a packed file
 *   X-Level              of a packed text: 0, or 1 with its two check bytes in front; what the reader is told if it isn't there
 *   X-Size               the announced size; the body's length if it isn't there
 *   X-Length             bytes of the body, where the body itself holds a line /EX
 *
 * We write CR LF; a line end that we read is CR LF, CR or LF. No byte of a body, title, name or BID is changed. */
#ifndef LETTER_H
#define LETTER_H

#include "message.h"

#include <stdio.h>

struct letter {
    struct message message; /* its parts lie in the file; to and at are those of To */
    struct part cc, forwarded_to;
};

/* Takes the next letter off the front of a file; a packed text that doesn't say its level has this one. Gives NULL, or what is wrong with it. */
const char *letter_read(struct part *file, uint8_t level, struct letter *letter);
/* Whether a letter follows, or only empty lines do. */
bool letter_follows(struct part *file);
/* CALL@MAILBOX. */
bool letter_address(struct part text, struct part *call, struct part *mailbox);
/* Whether a plain body has a person's line ends alone, LF: a mailbox would glue its lines together. */
bool letter_has_lf_ends(struct part body);
/* A person's line ends as they look on the air: CR LF and LF become CR. */
void letter_to_air(struct bytes *air, struct part body);

/* False if the file takes it not. Forwarded-to may be empty. */
bool letter_write(FILE *to, const struct message *message, struct part forwarded_to);

#endif
