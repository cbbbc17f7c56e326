"""The CPU features of instructions as objdump prints them, by their mnemonics and operands: a table of its own, beside that of the library.

The features are those that the Intel SDM names for each mnemonic (volume 2, the column "CPUID feature flag", and volume 1, chapter 5). Instructions
that run as NOPs where a feature is absent need none: ENDBR, RDSSP, PAUSE, prefetches.
"""
import functools
import re

PREFIX = re.compile(
    r"^(?:(?:lock|rep|repn?[ez]|bnd|notrack|data16|data32|addr32|addr16|[cdefgs]s|rex(?:\.[WRXB]+)?|xacquire|xrelease|\{\w+\})\s+)+(?=[a-z(])"
)
HINTS = re.compile(r"endbr(32|64)|rdssp[dq]|pause|prefetch.*|nop.*|ud[012]|xchg")


def words(text):
    return frozenset(text.split())


BY_NAME = {
    "TSC": words("rdtsc"),
    "RDTSCP": words("rdtscp"),
    "MSR": words("rdmsr wrmsr"),
    "CX8": words("cmpxchg8b"),
    "CX16": words("cmpxchg16b"),
    "SEP": words("sysenter sysexit"),
    "SYSCALL": words("syscall sysret sysretl sysretq"),
    "CLFSH": words("clflush"),
    "CLFLUSHOPT": words("clflushopt"),
    "FXSR": words("fxsave fxsave64 fxrstor fxrstor64"),
    "XSAVE": words("xsave xsave64 xrstor xrstor64 xgetbv xsetbv"),
    "XSAVEOPT": words("xsaveopt xsaveopt64"),
    "MONITOR": words("monitor mwait"),
    "POPCNT": words("popcnt"),
    "LZCNT": words("lzcnt"),
    "MOVBE": words("movbe"),
    "RDRAND": words("rdrand"),
    "RDSEED": words("rdseed"),
    "ADX": words("adcx adox"),
    "SMAP": words("clac stac"),
    "FSGSBASE": words("rdfsbase rdgsbase wrfsbase wrgsbase"),
    "BMI1": words("andn bextr blsi blsmsk blsr"),
    "BMI2": words("bzhi mulx pdep pext rorx sarx shlx shrx"),
    "AES": words("aesdec aesdeclast aesenc aesenclast aesimc aeskeygenassist"),
    "PCLMULQDQ": words("pclmulqdq pclmullqlqdq pclmulhqlqdq pclmullqhqdq pclmulhqhqdq"),
    "SSE": words("ldmxcsr stmxcsr sfence"),
    "SSE2": words("lfence mfence movnti"),
    "MMX": words("emms"),
    "SSE42": words("crc32 pcmpestri pcmpestrm pcmpistri pcmpistrm pcmpgtq"),
    "SSE3": words("addsubps addsubpd haddps haddpd hsubps hsubpd lddqu movddup movshdup movsldup"),
    "SSSE3": words("pabsb pabsw pabsd palignr phaddw phaddd phaddsw phsubw phsubd phsubsw pmaddubsw pmulhrsw pshufb psignb psignw psignd"),
    "SSE41": words(
        "blendps blendpd blendvps blendvpd dpps dppd extractps insertps roundps roundpd roundss roundsd movntdqa mpsadbw packusdw pblendvb pblendw "
        "pcmpeqq pextrb pextrd pextrq pinsrb pinsrd pinsrq pmaxsb pmaxsd pmaxud pmaxuw pminsb pminsd pminud pminuw pmovsxbw pmovsxbd pmovsxbq "
        "pmovsxwd pmovsxwq pmovsxdq pmovzxbw pmovzxbd pmovzxbq pmovzxwd pmovzxwq pmovzxdq pmuldq pmulld ptest phminposuw"
    ),
}
NAMED = {name: feature for feature, names in BY_NAME.items() for name in names}
# SSE2 also where the registers are MMX's
SSE2_ON_MMX = words("paddq psubq pmuludq")
# new with SSE on MMX's registers
SSE_ON_MMX = words("pavgb pavgw pextrw pinsrw pmaxsw pmaxub pminsw pminub pmovmskb pmulhuw psadbw pshufw movntq maskmovq")
SSE_CONVERSIONS = re.compile(r"cvtt?(pi2ps|ps2pi|si2ss|ss2si)")
FMA = re.compile(r"vfn?m(add|sub|addsub|subadd)(132|213|231)(ps|pd|ss|sd)")
FLOAT_OF_AVX = re.compile(r"v(ptest|permilp[sd]|perm2f128|testp[sd])")
AVX2_ALONE = re.compile(
    r"vpbroadcast[bwdq]|vbroadcasti128|vextracti128|vinserti128|vperm2i128|vpermd|vpermq|vpermps|vpermpd|vpmaskmov[dq]|vpsllv[dq]|vpsrlv[dq]|vpsravd|"
    r"vpblendd|vp?gather[dq][qdp][sd]?"
)
# VEX and EVEX instructions that have no row
NO_VEX_ROW = re.compile(
    # FMA4 and XOP
    r"vfn?m(add|sub|addsub|subadd)(ps|pd|ss|sd)|vprot[bwdq]|vpsh[al][bwdq]|vpperm|vpcmov|vpmacs\w+|vpmadcs\w+|vph(add|sub)u?[bwd][wdq]|vfrcz\w+|vpcom\w+|"
    r"vpdp.*|vpmadd52.*|vcvtneps.*|vbcst.*|vsha512.*|vsm[34].*|v?gf2p8.*|k(mov|and|andn|or|xor|xnor|not|add|shift[lr]|unpck|ortest|test).*"
)


def of_vex(name, operands):
    wide = "ymm" in operands
    if NO_VEX_ROW.fullmatch(name) or (wide and name.startswith(("vaes", "vpclmul"))):
        return {"no row"}
    if FMA.fullmatch(name):
        return {"FMA"}
    if name in ("vcvtph2ps", "vcvtps2ph"):
        return {"F16C"}
    if name.startswith("vaes"):
        return {"AES", "AVX"}
    if name.startswith("vpclmul"):
        return {"PCLMULQDQ", "AVX"}
    if AVX2_ALONE.fullmatch(name) or (name in ("vbroadcastss", "vbroadcastsd") and "[" not in operands):
        return {"AVX2"}
    if wide and name.startswith(("vp", "vmpsadbw", "vmovntdqa")) and not FLOAT_OF_AVX.fullmatch(name):
        return {"AVX2"}
    return {"AVX"}


def of_x87(name):
    found = {"FPU"}
    if name.startswith(("fcmov", "fcomi", "fucomi")):
        found.add("CMOV")
    if name.startswith("fisttp"):
        found.add("SSE3")
    return found


def of_vector(name, operands):
    """The features of a legacy instruction with vector registers."""
    if SSE_CONVERSIONS.fullmatch(name):
        return {"SSE"}
    if name.startswith("cvt"):
        return {"SSE2"}
    if "xmm" not in operands:
        # MMX's registers
        if name in NAMED:
            return {NAMED[name]}
        if name in SSE2_ON_MMX:
            return {"SSE2"}
        return {"SSE"} if name in SSE_ON_MMX else {"MMX"}
    if name in NAMED:
        return {NAMED[name]}
    if name == "pextrw" and "[" in operands:
        return {"SSE41"}
    if name.startswith("p") or name in ("movdqa", "movdqu", "movd", "movq", "movdq2q", "movq2dq", "movntdq", "maskmovdqu"):
        return {"SSE2"}
    if name.endswith(("ps", "ss")):
        return {"SSE"}
    if name.endswith(("pd", "sd")):
        return {"SSE2"}
    return {"unknown vector instruction " + name}


VMX = "vmcall|vmclear|vmfunc|vmlaunch|vmresume|vmptrld|vmptrst|vmread|vmwrite|vmxoff|vmxon|vmmcall|vmload|vmsave|vmrun"
NO_ROW = re.compile(
    VMX + r"|sha(1|256).*|xbegin|xend|xabort|xtest|rdpkru|wrpkru|xsavec.*|xsaves.*|xrstors.*|rdpid|clwb|gf2p8.*|serialize|cldemote|movdir.*|enqcmd.*|"
    r"tpause|umonitor|umwait|ptwrite|wbnoinvd|clzero|monitorx|mwaitx|incssp.*|saveprevssp|rstorssp|wrss.*|wruss.*|setssbsy|clrssbsy|"
    r"llwpcb|lwpins|extrq|insertq|movntss|movntsd|\(bad\)|\.byte.*|femms|pf\w+|pmulhrw|pavgusb|pi2f[dw]|pswapd|"
    r"ffreep|fndisi.*|fneni.*|fnsetpm.*|frstpm.*"
)


@functools.lru_cache(maxsize=None)
def features_of(name, operands, evex):
    """The features of an instruction. `operands` is the text of its operands, `evex` says whether its bytes have an EVEX prefix."""
    if NO_ROW.fullmatch(name):
        return frozenset({"no row"})
    if evex:
        return frozenset({"AVX512"})
    if HINTS.fullmatch(name):
        return frozenset({"PREFETCHW"}) if name == "prefetchw" else frozenset()
    if name == "tzcnt":
        return frozenset({"tzcnt"})
    if name.startswith("cmov"):
        return frozenset({"CMOV"})
    if name.startswith("v") and name not in ("verr", "verw"):
        return frozenset(of_vex(name, operands))
    if NO_VEX_ROW.fullmatch(name) and name.startswith("k"):
        return frozenset({"no row"})
    if re.fullmatch(r"cvtt?s[sd]2si", name):
        return frozenset({"SSE2" if "sd2" in name else "SSE"})
    if "mm" in operands and re.search(r"\bx?mm\d", operands):
        return frozenset(of_vector(name, operands))
    if name in NAMED:
        return frozenset({NAMED[name]})
    if name.startswith("f") and name != "fs":
        return frozenset(of_x87(name))
    return frozenset()
