/* The constant texts of the library: a proved call hands out no pointer. Nothing proves this file: it is trusted, and
 * tools/checks/check_header compares it with the header. */
#include "bg_relay.h"

#define NAME(status)                                                                                                   \
    case status:                                                                                                       \
        return #status

const char *bg_status_name(bg_status status) {
    switch (status) {
        NAME(BG_OK);
        NAME(BG_NO_ROOM);
        NAME(BG_MEMORY);
        NAME(BG_BAD_ARGUMENT);
        NAME(BG_NOT_OPEN);
        NAME(BG_WRONG_PARTY);
        NAME(BG_NOT_A_PACKET);
        NAME(BG_NOT_AN_ACTION);
        NAME(BG_DAMAGED);
        NAME(BG_WRONG_MATCH);
        NAME(BG_WRONG_SAVE);
        NAME(BG_SAVES_SPENT);
        NAME(BG_NOT_YOUR_TURN);
        NAME(BG_ALREADY_CLAIMED);
        NAME(BG_ILLEGAL);
        NAME(BG_NOT_DUE);
        NAME(BG_WORD_REFUSED);
        NAME(BG_NOT_TO_MOVE);
        NAME(BG_REFUSED);
        NAME(BG_NOT_EMPTY);
        NAME(BG_NOTHING_SAVED);
        NAME(BG_NOT_A_SAVE);
        NAME(BG_BUSY);
        NAME(BG_CLOSED);
        NAME(BG_COPIED);
        NAME(BG_OTHER_SENDER);
        NAME(BG_NO_XGID);
    default:
        return "an unknown status";
    }
}

const char *bg_version_text(void) {
    return BG_VERSION_TEXT;
}
