"""The codes of common instructions. codes.py writes this file from the rows of the table."""

from ._numbers import Named


class Code(Named):
    """The codes of common instructions, for an `Instr`; `code_of` finds the others.

    In the names RM is a register or memory, REL an offset and IMM an immediate, and a number is a width in bits. JMP, CALL, Jcc, RET, PUSH,
    POP and LEAVE are of 64-bit code, unless _O32, R32 or RM32 marks them as 32-bit code.

    >>> Instr(Code.JMP_REL32, Near(0x2000)).encode(64, 0x1000).hex()
    'e9fb0f0000'
    >>> print(Code.JMP_REL32)
    Code.JMP_REL32
    >>> Code.JMP_REL32 == code_of("jmp", "o64 E9 cd")
    True
    """

    JMP_REL8 = 631              # o64 EB cb
    JMP_REL32 = 626             # o64 E9 cd
    JMP_REL8_O32 = 630          # o32 EB cb
    JMP_REL32_O32 = 625         # o32 E9 cd
    JMP_RM64 = 691              # o64 FF /4
    JMP_RM32 = 690              # o32 FF /4
    CALL_REL32 = 623            # o64 E8 cd
    CALL_REL32_O32 = 622        # o32 E8 cd
    CALL_RM64 = 685             # o64 FF /2
    CALL_RM32 = 684             # o32 FF /2
    JO_REL8 = 154               # o64 70 cb
    JO_REL32 = 994              # o64 0F 80 cd
    JO_REL8_O32 = 153           # o32 70 cb
    JO_REL32_O32 = 993          # o32 0F 80 cd
    JNO_REL8 = 157              # o64 71 cb
    JNO_REL32 = 997             # o64 0F 81 cd
    JNO_REL8_O32 = 156          # o32 71 cb
    JNO_REL32_O32 = 996         # o32 0F 81 cd
    JB_REL8 = 160               # o64 72 cb
    JB_REL32 = 1000             # o64 0F 82 cd
    JB_REL8_O32 = 159           # o32 72 cb
    JB_REL32_O32 = 999          # o32 0F 82 cd
    JAE_REL8 = 163              # o64 73 cb
    JAE_REL32 = 1003            # o64 0F 83 cd
    JAE_REL8_O32 = 162          # o32 73 cb
    JAE_REL32_O32 = 1002        # o32 0F 83 cd
    JE_REL8 = 166               # o64 74 cb
    JE_REL32 = 1006             # o64 0F 84 cd
    JE_REL8_O32 = 165           # o32 74 cb
    JE_REL32_O32 = 1005         # o32 0F 84 cd
    JNE_REL8 = 169              # o64 75 cb
    JNE_REL32 = 1009            # o64 0F 85 cd
    JNE_REL8_O32 = 168          # o32 75 cb
    JNE_REL32_O32 = 1008        # o32 0F 85 cd
    JBE_REL8 = 172              # o64 76 cb
    JBE_REL32 = 1012            # o64 0F 86 cd
    JBE_REL8_O32 = 171          # o32 76 cb
    JBE_REL32_O32 = 1011        # o32 0F 86 cd
    JA_REL8 = 175               # o64 77 cb
    JA_REL32 = 1015             # o64 0F 87 cd
    JA_REL8_O32 = 174           # o32 77 cb
    JA_REL32_O32 = 1014         # o32 0F 87 cd
    JS_REL8 = 178               # o64 78 cb
    JS_REL32 = 1018             # o64 0F 88 cd
    JS_REL8_O32 = 177           # o32 78 cb
    JS_REL32_O32 = 1017         # o32 0F 88 cd
    JNS_REL8 = 181              # o64 79 cb
    JNS_REL32 = 1021            # o64 0F 89 cd
    JNS_REL8_O32 = 180          # o32 79 cb
    JNS_REL32_O32 = 1020        # o32 0F 89 cd
    JP_REL8 = 184               # o64 7A cb
    JP_REL32 = 1024             # o64 0F 8A cd
    JP_REL8_O32 = 183           # o32 7A cb
    JP_REL32_O32 = 1023         # o32 0F 8A cd
    JNP_REL8 = 187              # o64 7B cb
    JNP_REL32 = 1027            # o64 0F 8B cd
    JNP_REL8_O32 = 186          # o32 7B cb
    JNP_REL32_O32 = 1026        # o32 0F 8B cd
    JL_REL8 = 190               # o64 7C cb
    JL_REL32 = 1030             # o64 0F 8C cd
    JL_REL8_O32 = 189           # o32 7C cb
    JL_REL32_O32 = 1029         # o32 0F 8C cd
    JGE_REL8 = 193              # o64 7D cb
    JGE_REL32 = 1033            # o64 0F 8D cd
    JGE_REL8_O32 = 192          # o32 7D cb
    JGE_REL32_O32 = 1032        # o32 0F 8D cd
    JLE_REL8 = 196              # o64 7E cb
    JLE_REL32 = 1036            # o64 0F 8E cd
    JLE_REL8_O32 = 195          # o32 7E cb
    JLE_REL32_O32 = 1035        # o32 0F 8E cd
    JG_REL8 = 199               # o64 7F cb
    JG_REL32 = 1039             # o64 0F 8F cd
    JG_REL8_O32 = 198           # o32 7F cb
    JG_REL32_O32 = 1038         # o32 0F 8F cd
    RET = 381                   # o64 C3
    RET_O32 = 380               # o32 C3
    RET_IMM16 = 378             # o64 C2 iw
    PUSH_R64 = 120              # o64 50+ro
    PUSH_R32 = 119              # o32 50+rd
    PUSH_IMM8 = 142             # o64 6A ib
    PUSH_IMM32 = 136            # o64 68 id
    PUSH_RM64 = 697             # o64 FF /6
    POP_R64 = 123               # o64 58+ro
    POP_R32 = 122               # o32 58+rd
    POP_RM64 = 289              # o64 8F /0
    PUSHFQ = 306                # o64 9C
    POPFQ = 309                 # o64 9D
    NOP = 290                   # NF3 90
    INT3 = 402                  # CC
    UD2 = 744                   # 0F 0B
    SYSCALL = 738               # 0F 05
    HLT = 639                   # F4
    LEAVE = 395                 # o64 C9
    ENDBR64 = 777               # F3 0F 1E FA
    NOP_RM32 = 780              # o32 0F 1F /0
    MOV_RM64_R64 = 275          # REX.W + 89 /r
    MOV_R64_RM64 = 279          # REX.W + 8B /r
    MOV_R64_IMM64 = 347         # REX.W + B8+ro io
    MOV_RM64_IMM32 = 389        # REX.W + C7 /0 id
    LEA_R64 = 285               # REX.W + 8D /r
    XCHG_RM64_R64 = 271         # REX.W + 87 /r
    TEST_RM64_R64 = 267         # REX.W + 85 /r
    TEST_RM64_IMM32 = 650       # REX.W + F7 /0 id
    ADD_RM64_R64 = 3            # REX.W + 01 /r
    ADD_R64_RM64 = 7            # REX.W + 03 /r
    ADD_RM64_IMM8 = 242         # REX.W + 83 /0 ib
    ADD_RM64_IMM32 = 210        # REX.W + 81 /0 id
    OR_RM64_R64 = 19            # REX.W + 09 /r
    OR_R64_RM64 = 23            # REX.W + 0B /r
    OR_RM64_IMM8 = 245          # REX.W + 83 /1 ib
    OR_RM64_IMM32 = 213         # REX.W + 81 /1 id
    ADC_RM64_R64 = 33           # REX.W + 11 /r
    ADC_R64_RM64 = 37           # REX.W + 13 /r
    ADC_RM64_IMM8 = 248         # REX.W + 83 /2 ib
    ADC_RM64_IMM32 = 216        # REX.W + 81 /2 id
    SBB_RM64_R64 = 49           # REX.W + 19 /r
    SBB_R64_RM64 = 53           # REX.W + 1B /r
    SBB_RM64_IMM8 = 251         # REX.W + 83 /3 ib
    SBB_RM64_IMM32 = 219        # REX.W + 81 /3 id
    AND_RM64_R64 = 65           # REX.W + 21 /r
    AND_R64_RM64 = 69           # REX.W + 23 /r
    AND_RM64_IMM8 = 254         # REX.W + 83 /4 ib
    AND_RM64_IMM32 = 222        # REX.W + 81 /4 id
    SUB_RM64_R64 = 78           # REX.W + 29 /r
    SUB_R64_RM64 = 82           # REX.W + 2B /r
    SUB_RM64_IMM8 = 257         # REX.W + 83 /5 ib
    SUB_RM64_IMM32 = 225        # REX.W + 81 /5 id
    XOR_RM64_R64 = 91           # REX.W + 31 /r
    XOR_R64_RM64 = 95           # REX.W + 33 /r
    XOR_RM64_IMM8 = 260         # REX.W + 83 /6 ib
    XOR_RM64_IMM32 = 228        # REX.W + 81 /6 id
    CMP_RM64_R64 = 104          # REX.W + 39 /r
    CMP_R64_RM64 = 108          # REX.W + 3B /r
    CMP_RM64_IMM8 = 263         # REX.W + 83 /7 ib
    CMP_RM64_IMM32 = 231        # REX.W + 81 /7 id
    MOV_RM32_R32 = 274          # o32 89 /r
    MOV_R32_RM32 = 278          # o32 8B /r
    MOV_R32_IMM32 = 346         # o32 B8+rd id
    MOV_RM32_IMM32 = 388        # o32 C7 /0 id
    LEA_R32 = 284               # o32 8D /r
    XCHG_RM32_R32 = 270         # o32 87 /r
    TEST_RM32_R32 = 266         # o32 85 /r
    TEST_RM32_IMM32 = 649       # o32 F7 /0 id
    ADD_RM32_R32 = 2            # o32 01 /r
    ADD_R32_RM32 = 6            # o32 03 /r
    ADD_RM32_IMM8 = 241         # o32 83 /0 ib
    ADD_RM32_IMM32 = 209        # o32 81 /0 id
    OR_RM32_R32 = 18            # o32 09 /r
    OR_R32_RM32 = 22            # o32 0B /r
    OR_RM32_IMM8 = 244          # o32 83 /1 ib
    OR_RM32_IMM32 = 212         # o32 81 /1 id
    ADC_RM32_R32 = 32           # o32 11 /r
    ADC_R32_RM32 = 36           # o32 13 /r
    ADC_RM32_IMM8 = 247         # o32 83 /2 ib
    ADC_RM32_IMM32 = 215        # o32 81 /2 id
    SBB_RM32_R32 = 48           # o32 19 /r
    SBB_R32_RM32 = 52           # o32 1B /r
    SBB_RM32_IMM8 = 250         # o32 83 /3 ib
    SBB_RM32_IMM32 = 218        # o32 81 /3 id
    AND_RM32_R32 = 64           # o32 21 /r
    AND_R32_RM32 = 68           # o32 23 /r
    AND_RM32_IMM8 = 253         # o32 83 /4 ib
    AND_RM32_IMM32 = 221        # o32 81 /4 id
    SUB_RM32_R32 = 77           # o32 29 /r
    SUB_R32_RM32 = 81           # o32 2B /r
    SUB_RM32_IMM8 = 256         # o32 83 /5 ib
    SUB_RM32_IMM32 = 224        # o32 81 /5 id
    XOR_RM32_R32 = 90           # o32 31 /r
    XOR_R32_RM32 = 94           # o32 33 /r
    XOR_RM32_IMM8 = 259         # o32 83 /6 ib
    XOR_RM32_IMM32 = 227        # o32 81 /6 id
    CMP_RM32_R32 = 103          # o32 39 /r
    CMP_R32_RM32 = 107          # o32 3B /r
    CMP_RM32_IMM8 = 262         # o32 83 /7 ib
    CMP_RM32_IMM32 = 230        # o32 81 /7 id
    MOV_RM8_R8 = 272            # 88 /r
    MOV_R8_RM8 = 276            # 8A /r
    MOV_R8_IMM8 = 344           # B0+rb ib
    MOV_RM8_IMM8 = 386          # C6 /0 ib
