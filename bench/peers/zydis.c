// Zydis: the instruction with its operands, without them (-DNO_OPERANDS), with them and its Intel text (-DWITH_TEXT), or with them and encoded again
// (-DWITH_ENCODE).
#include "measure.h"
#include <Zydis/Zydis.h>

#ifdef NO_OPERANDS
#define NAME "zydis, no operands"
#elif defined(WITH_TEXT)
#define NAME "zydis, text"
#elif defined(WITH_ENCODE)
#define NAME "zydis, encoded"
#else
#define NAME "zydis, operands"
#endif

static void sweep(const uint8_t *bytes, size_t size, int bits, struct counts *counts)
{
    ZydisDecoder decoder;
    if (bits == 16)
        ZydisDecoderInit(&decoder, ZYDIS_MACHINE_MODE_LEGACY_16, ZYDIS_STACK_WIDTH_16);
    else if (bits == 32)
        ZydisDecoderInit(&decoder, ZYDIS_MACHINE_MODE_LEGACY_32, ZYDIS_STACK_WIDTH_32);
    else
        ZydisDecoderInit(&decoder, ZYDIS_MACHINE_MODE_LONG_64, ZYDIS_STACK_WIDTH_64);
    ZydisDecodedInstruction instruction;
#ifdef WITH_TEXT
    ZydisFormatter formatter;
    ZydisFormatterInit(&formatter, ZYDIS_FORMATTER_STYLE_INTEL);
#endif
    size_t place = 0;
    while (place < size) {
#ifdef NO_OPERANDS
        ZyanStatus status = ZydisDecoderDecodeInstruction(&decoder, ZYAN_NULL, bytes + place, size - place, &instruction);
#else
        ZydisDecodedOperand operands[ZYDIS_MAX_OPERAND_COUNT];
        ZyanStatus status = ZydisDecoderDecodeFull(&decoder, bytes + place, size - place, &instruction, operands);
#endif
        if (ZYAN_SUCCESS(status)) {
            counts->items++;
            counts->sum += instruction.mnemonic;
#ifdef WITH_TEXT
            char text[256];
            ZydisFormatterFormatInstruction(&formatter, &instruction, operands, instruction.operand_count_visible, text, sizeof text, place, ZYAN_NULL);
            counts->sum += (uint64_t)text[0];
#endif
#ifdef WITH_ENCODE
            ZydisEncoderRequest request;
            uint8_t bytes_again[ZYDIS_MAX_INSTRUCTION_LENGTH];
            ZyanUSize length = sizeof bytes_again;
            if (ZYAN_SUCCESS(ZydisEncoderDecodedInstructionToEncoderRequest(&instruction, operands, instruction.operand_count_visible, &request))
                && ZYAN_SUCCESS(ZydisEncoderEncodeInstruction(&request, bytes_again, &length)))
                counts->sum += length;
#endif
            place += instruction.length;
        } else {
            counts->errors++;
            place++;
        }
    }
}

int main(int argc, char **argv)
{
    measure(argc, argv, NAME, sweep);
    return 0;
}
