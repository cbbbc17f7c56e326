// Prints the registers that instructions read and write by LLVM: those of operands, and those that its descriptions imply. A line of standard input has a
// mode and the bytes of an instruction in hexadecimal, such as `64 f3a4`. A line of the output repeats it, followed by the name of LLVM's instruction and
// each register with r or w: `MOVSB r:RSI w:RSI`.
#include <llvm/MC/MCAsmInfo.h>
#include <llvm/MC/MCContext.h>
#include <llvm/MC/MCDisassembler/MCDisassembler.h>
#include <llvm/MC/MCInst.h>
#include <llvm/MC/MCInstrInfo.h>
#include <llvm/MC/MCRegisterInfo.h>
#include <llvm/MC/MCSubtargetInfo.h>
#include <llvm/MC/TargetRegistry.h>
#include <llvm/Support/TargetSelect.h>
#include <llvm/Support/raw_ostream.h>

#include <cstdio>
#include <cstdlib>
#include <cstring>
#include <memory>
#include <string>
#include <vector>

using namespace llvm;

// A disassembler of a mode, with what it needs.
struct Mode {
    std::unique_ptr<MCRegisterInfo> registers;
    std::unique_ptr<MCAsmInfo> assembler;
    std::unique_ptr<MCInstrInfo> instructions;
    std::unique_ptr<MCSubtargetInfo> subtarget;
    std::unique_ptr<MCContext> context;
    std::unique_ptr<MCDisassembler> disassembler;

    explicit Mode(const char *triple)
    {
        std::string error;
        const Target *target = TargetRegistry::lookupTarget(triple, error);
        MCTargetOptions options;
        registers.reset(target->createMCRegInfo(triple));
        assembler.reset(target->createMCAsmInfo(*registers, triple, options));
        instructions.reset(target->createMCInstrInfo());
        subtarget.reset(target->createMCSubtargetInfo(triple, "", ""));
        context.reset(new MCContext(Triple(triple), assembler.get(), registers.get(), subtarget.get()));
        disassembler.reset(target->createMCDisassembler(*subtarget, *context));
    }

    void tell(const char *how, unsigned reg) const { printf(" %s:%s", how, registers->getName(reg)); }

    void tell_instruction(const MCInst &inst) const
    {
        const MCInstrDesc &desc = instructions->get(inst.getOpcode());
        printf(" %s", instructions->getName(inst.getOpcode()).str().c_str());
        for (unsigned k = 0; k < inst.getNumOperands(); k++)
            if (inst.getOperand(k).isReg() && inst.getOperand(k).getReg() != 0)
                tell(k < desc.getNumDefs() ? "w" : "r", inst.getOperand(k).getReg());
        for (const MCPhysReg *reg = desc.getImplicitUses(); reg != nullptr && *reg != 0; reg++)
            tell("r", *reg);
        for (const MCPhysReg *reg = desc.getImplicitDefs(); reg != nullptr && *reg != 0; reg++)
            tell("w", *reg);
        puts("");
    }
};

int main()
{
    LLVMInitializeX86TargetInfo();
    LLVMInitializeX86TargetMC();
    LLVMInitializeX86Disassembler();
    const Mode modes[] = {Mode("i386-unknown-linux-code16"), Mode("i386-unknown-linux"), Mode("x86_64-unknown-linux")};
    char line[256];
    while (fgets(line, sizeof line, stdin)) {
        int bits = atoi(line);
        char *digits = strchr(line, ' ') + 1;
        digits[strcspn(digits, "\n")] = 0;
        std::vector<uint8_t> bytes(strlen(digits) / 2);
        for (size_t k = 0; k < bytes.size(); k++)
            sscanf(digits + 2 * k, "%2hhx", &bytes[k]);
        const Mode &mode = modes[bits / 32];
        MCInst inst;
        uint64_t size = 0;
        printf("%d %s", bits, digits);
        if (mode.disassembler->getInstruction(inst, size, bytes, 0, nulls()) != MCDisassembler::Success || size != bytes.size())
            puts(" invalid");
        else
            mode.tell_instruction(inst);
    }
    return 0;
}
