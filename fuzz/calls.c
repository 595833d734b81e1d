// The fuzzer's target for calls: bytes become a call, whose properties are checked.
#include "decode.h"
#include "properties.h"

int LLVMFuzzerTestOneInput(const uint8_t *data, size_t size);

int LLVMFuzzerTestOneInput(const uint8_t *data, size_t size) {
    Call call = decode_call(data, size);
    check_call(&call);
    call_free(&call);
    return 0;
}
