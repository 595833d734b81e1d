// Writing and reading hexadecimal digits.
#include "hexadecimal.h"

#include <string.h>

static const char DIGITS[] = "0123456789abcdef";

void print_hexadecimal(const Bytes *bytes, FILE *to) {
    for (size_t index = 0; index < bytes->count; index++) {
        unsigned char byte = (unsigned char)bytes->at[index];
        fputc(DIGITS[byte / 16], to);
        fputc(DIGITS[byte % 16], to);
    }
}

// The value of a hexadecimal digit; 16 for another byte.
static size_t digit_value(char byte) {
    const char *place = byte == '\0' ? NULL : strchr(DIGITS, byte);
    return place == NULL ? 16 : (size_t)(place - DIGITS);
}

bool parse_hexadecimal(const char *digits, Bytes *bytes) {
    for (; digits[0] != '\0'; digits += 2) {
        size_t high = digit_value(digits[0]);
        size_t low = digit_value(digits[1]);
        if (high == 16 || low == 16) {
            return false;
        }
        bytes_add(bytes, (char)(16 * high + low));
    }
    return true;
}
