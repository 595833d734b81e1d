// Damaging texts: bytes replaced, put in, taken out or cut off.
#include "damage.h"

void bytes_put(Bytes *text, size_t place, size_t gone, const char *bytes, size_t count) {
    Bytes changed = {0};
    bytes_add_all(&changed, text->at, place);
    bytes_add_all(&changed, bytes, count);
    bytes_add_all(&changed, text->at + place + gone, text->count - place - gone);
    bytes_free(text);
    *text = changed;
}

void damage_byte(Bytes *text, size_t place, ByteDamage damage, char byte) {
    if (damage == CUT_OFF) {
        text->count = place;
    } else {
        bytes_put(text, place, damage != BYTE_PUT_IN, &byte, damage != BYTE_TAKEN_OUT);
    }
}

void damage_somewhere(Random *random, Bytes *text,
                      void (*damage_at)(Random *random, Bytes *text, size_t place)) {
    uint32_t times = 1 + random_one_in(random, 5);
    for (uint32_t time = 0; time < times && text->count > 0; time++) {
        damage_at(random, text, random_below(random, (uint32_t)text->count));
    }
}
