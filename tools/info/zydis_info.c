// Prints what instructions touch by Zydis. A line of standard input has a mode and the bytes of an instruction in hexadecimal, such as `64 f3a4`. A line
// of the output repeats it, followed by the mnemonic, the instruction set, and the operands and flags, separated by semicolons.
#include <Zydis/Zydis.h>
#include <stdio.h>
#include <stdlib.h>
#include <string.h>

static void tell_register(ZydisRegister reg)
{
    printf(" %s", reg == ZYDIS_REGISTER_NONE ? "-" : ZydisRegisterGetString(reg));
}

static void tell_operand(const ZydisDecodedOperand *operand)
{
    if (operand->type == ZYDIS_OPERAND_TYPE_REGISTER) {
        printf(" ; reg %d %d", operand->visibility, operand->actions);
        tell_register(operand->reg.value);
    } else if (operand->type == ZYDIS_OPERAND_TYPE_MEMORY) {
        printf(" ; mem %d %d %d", operand->visibility, operand->actions, operand->mem.type);
        tell_register(operand->mem.segment);
        tell_register(operand->mem.base);
        tell_register(operand->mem.index);
        printf(" %d %lld %d %d %d", operand->mem.scale, (long long)operand->mem.disp.value, operand->size, operand->element_size, operand->element_count);
    }
}

static void tell_flags(const char *name, const ZydisAccessedFlags *flags)
{
    if (flags != NULL)
        printf(" ; %s %u %u %u %u %u", name, flags->tested, flags->modified, flags->set_0, flags->set_1, flags->undefined);
}

int main(void)
{
    char line[256];
    while (fgets(line, sizeof line, stdin)) {
        int bits = atoi(line);
        char *digits = strchr(line, ' ') + 1;
        digits[strcspn(digits, "\n")] = 0;
        uint8_t bytes[16];
        size_t count = strlen(digits) / 2;
        for (size_t k = 0; k < count; k++)
            sscanf(digits + 2 * k, "%2hhx", &bytes[k]);
        ZydisDecoder decoder;
        if (bits == 16)
            ZydisDecoderInit(&decoder, ZYDIS_MACHINE_MODE_LEGACY_16, ZYDIS_STACK_WIDTH_16);
        else if (bits == 32)
            ZydisDecoderInit(&decoder, ZYDIS_MACHINE_MODE_LEGACY_32, ZYDIS_STACK_WIDTH_32);
        else
            ZydisDecoderInit(&decoder, ZYDIS_MACHINE_MODE_LONG_64, ZYDIS_STACK_WIDTH_64);
        ZydisDecodedInstruction instruction;
        ZydisDecodedOperand operands[ZYDIS_MAX_OPERAND_COUNT];
        printf("%d %s", bits, digits);
        if (ZYAN_FAILED(ZydisDecoderDecodeFull(&decoder, bytes, count, &instruction, operands)) || instruction.length != count) {
            puts(" invalid");
            continue;
        }
        printf(" %s %s", ZydisMnemonicGetString(instruction.mnemonic), ZydisISASetGetString(instruction.meta.isa_set));
        for (int k = 0; k < instruction.operand_count; k++)
            tell_operand(&operands[k]);
        tell_flags("cpu", instruction.cpu_flags);
        tell_flags("fpu", instruction.fpu_flags);
        puts("");
    }
    return 0;
}
