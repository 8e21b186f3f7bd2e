#include "refusal.h"
#include "fringemole.h"

const char *refusal_words(unsigned number)
{
    static const char *const words[FRINGEMOLE_LAST + 1] = {
        [FRINGEMOLE_OK] = "no refusal",
        [FRINGEMOLE_BAD_MEMORY] = "lent memory is not as the library left it",
        [FRINGEMOLE_LINE_TOO_LONG] = "the partner's line is over 256 bytes",
        [FRINGEMOLE_NOT_SID] = "the partner's first line is no SID",
        [FRINGEMOLE_NO_FORWARDING] = "the partner can't do FBB forwarding (no F in its SID)",
        [FRINGEMOLE_NOT_ALLOWED] = "the partner sent a line that isn't allowed here",
        [FRINGEMOLE_PROPOSAL_COUNT] = "the partner proposed more than five messages, or none",
        [FRINGEMOLE_BAD_ANSWER] = "the partner's FS line is wrong",
        [FRINGEMOLE_BAD_TRANSFER] = "the partner's transfer is wrong",
        [FRINGEMOLE_BAD_CHECKSUM] = "the checksum of the partner's transfer is wrong",
        [FRINGEMOLE_STORE_FULL] = "no room for the partner's message",
        [FRINGEMOLE_BYTES_WAIT] = "the partner sent while it was our turn",
        [FRINGEMOLE_ENDED] = "the session has ended",
        [FRINGEMOLE_WRONG_BLOCK_SUM] = "the checksum of the partner's proposals is wrong",
    };

    return number <= FRINGEMOLE_LAST ? words[number] : "a number that this host doesn't know";
}
