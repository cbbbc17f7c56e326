// The library for C: the instruction as a struct, or with its Intel text (-DWITH_TEXT), both by one call (-DWITH_LINE), encoded again
// (-DWITH_ENCODE), what it reads and writes (-DWITH_EFFECTS), or the structs of many instructions by one call (-DWITH_MANY).
#include "measure.h"
#include "feddurzai.h"

#ifdef WITH_TEXT
#define NAME "feddurzai in C, text"
#elif defined WITH_LINE
#define NAME "feddurzai in C, text by one call"
#elif defined WITH_ENCODE
#define NAME "feddurzai in C, encoded"
#elif defined WITH_EFFECTS
#define NAME "feddurzai in C, effects"
#elif defined WITH_MANY
#define NAME "feddurzai in C, many by one call"
#else
#define NAME "feddurzai in C"
#endif

#ifdef WITH_MANY
enum { ITEMS = 512 };

static void sweep(const uint8_t *bytes, size_t size, int bits, struct counts *counts)
{
    static feddurzai_instr items[ITEMS];
    size_t place = 0;
    while (place < size) {
        size_t count = 0;
        int32_t taken = feddurzai_decode_many((uint32_t)bits, place, bytes + place, size - place, items, ITEMS, &count);
        if (taken <= 0)
            return;
        for (size_t n = 0; n < count; n++) {
            if (items[n].code < FEDDURZAI_CODE_TOO_SHORT) {
                counts->sum += items[n].code;
                counts->items++;
            } else {
                counts->errors++;
            }
        }
        place += (size_t)taken;
    }
}
#else
static void sweep(const uint8_t *bytes, size_t size, int bits, struct counts *counts)
{
    feddurzai_instr instr;
    size_t place = 0;
    while (place < size) {
#ifdef WITH_LINE
        char line[FEDDURZAI_MAX_TEXT];
        int32_t len = feddurzai_line((uint32_t)bits, FEDDURZAI_INTEL, place, bytes + place, size - place, &instr, line, sizeof line);
#else
        int32_t len = feddurzai_decode((uint32_t)bits, place, bytes + place, size - place, &instr);
#endif
        if (len > 0) {
#ifdef WITH_TEXT
            char text[FEDDURZAI_MAX_TEXT];
            counts->sum += (uint64_t)feddurzai_text((uint32_t)bits, FEDDURZAI_INTEL, &instr, text, sizeof text);
#elif defined WITH_ENCODE
            uint8_t bytes_again[FEDDURZAI_MAX_LEN];
            counts->sum += (uint64_t)feddurzai_encode((uint32_t)bits, place, &instr, bytes_again, sizeof bytes_again);
#elif defined WITH_EFFECTS
            feddurzai_touched touched;
            counts->sum += feddurzai_effects((uint32_t)bits, &instr, &touched) == 0 ? touched.flags_written : 0;
#else
            counts->sum += instr.code;
#endif
            counts->items++;
            place += (size_t)len;
        } else {
            counts->errors++;
            place++;
        }
    }
}
#endif

int main(int argc, char **argv)
{
    measure(argc, argv, NAME, sweep);
    return 0;
}
