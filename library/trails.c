/* What libtrails has besides the proved functions: texts, made of the header's own table. */
#include "trails.h"

const char *trails_version(void) {
    return TRAILS_VERSION;
}

#define TRAILS_CASE(name, number, sentence) \
    case name:                              \
        return sentence;

const char *trails_sentence(uint32_t refusal) {
    switch (refusal) {
        TRAILS_REFUSALS(TRAILS_CASE)
    case TRAILS_ACCEPTED:
        return "Not refused.";
    default:
        return "The number isn't the documents'.";
    }
}
