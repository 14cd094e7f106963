"""Which instructions a program may use that is compiled to run here."""

# LLVM's names of processors, the best first, with the instructions that each has beside those of every x86-64, by the names that
# Linux gives them.
V2 = "cx16 lahf_lm pni popcnt sse4_1 sse4_2 ssse3"
LEVELS = {"x86-64-v3": f"{V2} abm avx avx2 bmi1 bmi2 f16c fma movbe xsave", "x86-64-v2": V2, "x86-64": ""}


def here():
    """The instructions that this processor has; none where it isn't told."""
    with open("/proc/cpuinfo", encoding="utf-8", errors="replace") as it:
        return next((line.partition(":")[2].split() for line in it if line.startswith("flags")), [])


def level():
    """The best of these processors as which this one can serve."""
    has = set(here())
    return next(name for name, wanted in LEVELS.items() if has.issuperset(wanted.split()))
