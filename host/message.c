#include "message.h"

const char *const state_names[HELD + 1] = { "waiting", "forwarded", "declined", "held" };
const char *const form_names[PACKED_FILE + 1] = { "plain", "message", "file" };
