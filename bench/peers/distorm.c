// diStorm: 512 instructions a call, as records, without their texts or with them (-DWITH_TEXT).
#include "measure.h"
#define SUPPORT_64BIT_OFFSET
#include <distorm3/distorm.h>

#ifdef WITH_TEXT
#define NAME "distorm, text"
#else
#define NAME "distorm"
#endif

enum { MANY = 512 };

static void sweep(const uint8_t *bytes, size_t size, int bits, struct counts *counts)
{
    static _DInst found[MANY];
    size_t place = 0;
    while (place < size) {
        _CodeInfo code = {0};
        code.codeOffset = place;
        code.code = bytes + place;
        code.codeLen = (int)(size - place);
        code.dt = bits == 16 ? Decode16Bits : bits == 32 ? Decode32Bits : Decode64Bits;
        unsigned int number = 0;
        distorm_decompose(&code, found, MANY, &number);
        if (number == 0) {
            counts->errors++;
            place++;
        }
        for (unsigned int n = 0; n < number; n++) {
            if (found[n].flags == FLAG_NOT_DECODABLE) {
                counts->errors++;
                place++;
            } else {
                counts->items++;
                counts->sum += found[n].opcode;
#ifdef WITH_TEXT
                _DecodedInst text;
                distorm_format(&code, &found[n], &text);
                counts->sum += text.mnemonic.length;
#endif
                place += found[n].size;
            }
        }
    }
}

int main(int argc, char **argv)
{
    measure(argc, argv, NAME, sweep);
    return 0;
}
