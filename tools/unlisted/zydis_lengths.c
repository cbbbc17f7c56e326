// Prints the length of instructions by Zydis, and the address that a relative operand refers to. A line of standard input has a mode and bytes in
// hexadecimal, such as `64 62f17c4858c1`. A line of the output has the length and the address, or `-` for each that there is not. The first byte has the
// address 0x400000, in 16-bit mode 0x4000.
#include <Zydis/Zydis.h>
#include <stdio.h>
#include <stdlib.h>
#include <string.h>

int main(void)
{
    char line[256];
    ZydisDecoder decoders[3];
    ZydisDecoderInit(&decoders[0], ZYDIS_MACHINE_MODE_LONG_COMPAT_16, ZYDIS_STACK_WIDTH_16);
    ZydisDecoderInit(&decoders[1], ZYDIS_MACHINE_MODE_LONG_COMPAT_32, ZYDIS_STACK_WIDTH_32);
    ZydisDecoderInit(&decoders[2], ZYDIS_MACHINE_MODE_LONG_64, ZYDIS_STACK_WIDTH_64);
    while (fgets(line, sizeof line, stdin)) {
        int bits = atoi(line);
        ZyanU64 address = bits == 16 ? 0x4000 : 0x400000;
        char *digits = strchr(line, ' ') + 1;
        uint8_t bytes[16];
        size_t count = strcspn(digits, "\n") / 2;
        for (size_t i = 0; i < count && i < 16; i++)
            sscanf(digits + 2 * i, "%2hhx", &bytes[i]);
        ZydisDecodedInstruction instruction;
        ZydisDecodedOperand operands[ZYDIS_MAX_OPERAND_COUNT];
        ZyanStatus status = ZydisDecoderDecodeFull(&decoders[bits / 32], bytes, count, &instruction, operands);
        if (!ZYAN_SUCCESS(status)) {
            printf("- - %u\n", (unsigned)ZYAN_STATUS_CODE(status));
            continue;
        }
        int told = 0;
        for (int i = 0; i < instruction.operand_count && !told; i++) {
            const ZydisDecodedOperand *operand = &operands[i];
            int at_rip = operand->type == ZYDIS_OPERAND_TYPE_MEMORY
                && (operand->mem.base == ZYDIS_REGISTER_RIP || operand->mem.base == ZYDIS_REGISTER_EIP);
            int branch = operand->type == ZYDIS_OPERAND_TYPE_IMMEDIATE && operand->imm.is_relative;
            ZyanU64 target;
            if ((at_rip || branch) && ZYAN_SUCCESS(ZydisCalcAbsoluteAddress(&instruction, operand, address, &target))) {
                printf("%u %llx %s\n", instruction.length, (unsigned long long)target, ZydisMnemonicGetString(instruction.mnemonic));
                told = 1;
            }
        }
        if (!told)
            printf("%u - %s\n", instruction.length, ZydisMnemonicGetString(instruction.mnemonic));
    }
    return 0;
}
