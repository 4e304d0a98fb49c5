"""Makes an LLVM module that the kit compiled for x86-64 and Linux one for another machine or system.

It changes what names these: data layout, triple, attributes, the names of the system's calls, and, for WebAssembly, one
instruction of x86-64, which gets a definition in plain LLVM. What it does not know stops it: the module would be
compiled to something else then. keep.py says where the module comes from.
"""
import collections
import re
import sys

# The words that the kit writes for x86-64. The start of a program, which sees whether the processor has all that the
# rest needs, is for the first processors of x86-64.
X86_LAYOUT = "e-m:e-p270:32:32-p271:32:32-p272:64:64-i64:64-i128:128-f80:128-n8:16:32:64-S128"
X86_TRIPLE = "x86_64-unknown-linux-gnu"
X86_ATTRIBUTES = '"probe-stack"="inline-asm" "stack-probe-size"="3072"'
X86_CPU, X86_FIRST_CPU = '"target-cpu"="x86-64-v2"', '"target-cpu"="x86-64"'

# The calls of the kit's C side and of the C library, as the C files here have them.
DECLARED = {
    "declare { i64, i64 } @rattle_alloc(i64 noundef, i64 noundef)",
    "declare { i64, i64 } @rattle_realloc(ptr noundef, i64 noundef, i64 noundef, i64 noundef)",
    "declare void @rattle_dealloc(ptr noundef)",
    "declare noundef i64 @rattle_arg(i64 noundef, ptr noundef, i64 noundef)",
    "declare noundef i64 @rattle_arg_count()",
    "declare noundef i64 @rattle_env(ptr noundef, ptr noundef, i64 noundef)",
    "declare noundef i64 @rattle_env_at(i64 noundef, ptr noundef, i64 noundef)",
    "declare noundef i32 @rattle_errno()",
    "declare void @rattle_set_errno(i32 noundef)",
    "declare i64 @__sysv_signal(i32, i64)",
    "declare ptr @__x86_get_cpuid_feature_leaf(i32)",
    "declare i64 @__write(i32, ptr, i64)",
    "declare noundef i32 @__xpg_strerror_r(i32 noundef, ptr noundef, i64 noundef)",
    "declare noundef i32 @open(ptr noundef, i32 noundef, ...)",
    "declare noundef i64 @read(i32 noundef, ptr noundef, i64 noundef)",
    "declare noundef i64 @write(i32 noundef, ptr noundef, i64 noundef)",
    "declare noundef i32 @close(i32 noundef)",
    "declare noundef i32 @isatty(i32 noundef)",
    "declare noundef i32 @statx(i32 noundef, ptr noundef, i32 noundef, i32 noundef, ptr noundef)",
    "declare noundef i64 @readlink(ptr noundef, ptr noundef, i64 noundef)",
    "declare noundef i32 @ftruncate(i32 noundef, i64 noundef)",
    "declare noundef i32 @fchmod(i32 noundef, i32 noundef)",
    "declare noundef i32 @fsync(i32 noundef)",
    "declare noundef i32 @fdatasync(i32 noundef)",
    "declare noundef i32 @flock(i32 noundef, i32 noundef)",
    "declare noundef i32 @unlink(ptr noundef)",
    "declare noundef i32 @rename(ptr noundef, ptr noundef)",
}
# Names that the C files give to functions of glibc, since another C library has such names for other functions.
SYSTEM = ["open", "read", "write", "close", "isatty", "statx", "readlink", "ftruncate", "fchmod", "fsync", "fdatasync",
          "flock", "unlink", "rename"]
NAMES = {"main": "program_main", "__sysv_signal": "system_signal", "__xpg_strerror_r": "system_strerror_r",
         "__x86_get_cpuid_feature_leaf": "system_cpu_features", "__write": "system_write",
         **{name: f"system_{name}" for name in SYSTEM}}
NAMED = re.compile(r"@(" + "|".join(NAMES) + r")\(")

# LLVM's own functions that mean the same on each machine, without the types at the end of their names.
PORTABLE = {"abs", "arithmetic.fence", "bitreverse", "bswap", "ctlz", "ctpop", "cttz", "fabs", "fshl", "fshr", "memcpy",
            "memmove", "memset", "sadd.sat", "sadd.with.overflow", "smax", "smin", "smul.with.overflow", "ssub.sat",
            "ssub.with.overflow", "trap", "uadd.sat", "uadd.with.overflow", "umax", "umin", "umul.with.overflow",
            "usub.sat", "usub.with.overflow", "vector.reduce.add", "vector.reduce.and", "vector.reduce.or"}
TYPES = r"(?:\.(?:p0|(?:v\d+)?[if]\d+))*"
# Words of attributes that mean the same on each machine.
WORDS = {"alwaysinline", "cold", "inlinehint", "nobuiltin", "nocallback", "nocreateundeforpoison", "nofree", "noinline",
         "noreturn", "nosync", "nounwind", "speculatable", "willreturn", "memory(none)", "memory(argmem: write)",
         "memory(argmem: readwrite)", "memory(inaccessiblemem: write)"}
# What may not be in the module: parts of machines and of other ways to call.
FOREIGN = re.compile(r"\basm\b|x86|ppc|addrspace|\bgc\b|thread_local|@llvm\.frameaddress|@llvm\.va_|personality")

SHUFFLE = "@llvm.x86.ssse3.pshuf.b.128"
PORTABLE_SHUFFLE = "@semphluk.shuffle"


def shuffle():
    """The definition of `pshufb`: each byte is the one of the table that the low 4 bits of an index say, and 0 if bit 7
    of the index is 1."""
    lines = [f"define internal <16 x i8> {PORTABLE_SHUFFLE}(<16 x i8> %table, <16 x i8> %index) alwaysinline {{",
             f"  %low = and <16 x i8> %index, <{', '.join(['i8 15'] * 16)}>"]
    made = "zeroinitializer"
    for lane in range(16):
        lines += [f"  %place{lane} = extractelement <16 x i8> %low, i32 {lane}",
                  f"  %byte{lane} = extractelement <16 x i8> %table, i8 %place{lane}",
                  f"  %made{lane} = insertelement <16 x i8> {made}, i8 %byte{lane}, i32 {lane}"]
        made = f"%made{lane}"
    lines += ["  %is_zero = icmp slt <16 x i8> %index, zeroinitializer",
              f"  %answer = select <16 x i1> %is_zero, <16 x i8> zeroinitializer, <16 x i8> {made}",
              "  ret <16 x i8> %answer", "}"]
    return lines


def two_words(name, types):
    """A definition of a call of the heap whose answer has two words: C on Windows returns these through a pointer."""
    given = [f"{kind} %{number}" for number, kind in enumerate(types)]
    return [f"declare void @system_{name}(ptr, {', '.join(types)})",
            f"define internal {{ i64, i64 }} @rattle_{name}({', '.join(given)}) nounwind {{",
            "  %room = alloca { i64, i64 }, align 16",
            f"  call void @system_{name}(ptr %room, {', '.join(given)})",
            "  %made = load { i64, i64 }, ptr %room, align 16",
            "  ret { i64, i64 } %made", "}"]


def windows_heap():
    return two_words("alloc", ["i64", "i64"]) + two_words("realloc", ["ptr", "i64", "i64", "i64"])


# A machine or system: what names it, and definitions that stand in the place of declared functions.
Target = collections.namedtuple("Target", "layout triple attributes cpu first_cpu defined definitions")
TARGETS = {
    # The words that the kit writes for its own target of WebAssembly, with 64-bit memory.
    "wasm64": Target("e-m:e-p:64:64-p10:8:8-p20:8:8-i64:64-i128:128-n32:64-S128-ni:1:10:20", "wasm64-unknown-unknown",
                     '"no-builtin-bcmp" "no-builtin-memcmp" "no-builtin-strlen"', '"target-cpu"="lime1"',
                     '"target-cpu"="lime1"', [SHUFFLE], shuffle),
    # The words of clang. Its stack is probed by a function of the compiler's library, which LLVM calls on its own.
    "windows": Target("e-m:w-p270:32:32-p271:32:32-p272:64:64-i64:64-i128:128-f80:128-n8:16:32:64-S128",
                      "x86_64-w64-windows-gnu", "", X86_CPU, X86_FIRST_CPU, ["@rattle_alloc", "@rattle_realloc"],
                      windows_heap),
}
# The start of a program calls `write` by this name too, which needs no second declaration.
TWICE = "@__write"


def stop(line, why):
    sys.exit(f"machines/module.py: {why}: {line.strip()[:200]}\n"
             "The kit's compiler writes something that this script was not written for.")


def check_declared(line):
    """Stops at a declared function that no C file here has, and that is no portable one of LLVM's own."""
    bare = re.sub(r" #\d+$", "", line)
    own = re.match(rf"declare .*@llvm\.([\w.]+?){TYPES}\(", bare)
    if bare not in DECLARED and not (own and own[1] in PORTABLE) and SHUFFLE not in bare:
        stop(line, "a function that nothing here defines")


def check_attributes(line, known):
    """Stops at an attribute that is not known."""
    words = re.findall(r'"[^"]*"="[^"]*"|"[^"]*"|\w+\([^)]*\)|\w+', line[line.index("{") + 1:line.rindex("}")])
    for word in words:
        if word not in WORDS and word not in known.split():
            stop(line, f"the attribute {word}")


def converted(line, target):
    """A line of the module, for a target."""
    if line.startswith("target "):
        made = line.replace(X86_LAYOUT, target.layout).replace(X86_TRIPLE, target.triple)
        if made == line:
            stop(line, "another machine")
        return made
    if line.startswith("attributes "):
        known = [target.attributes, target.cpu, target.first_cpu]
        for word, there in zip([X86_ATTRIBUTES, X86_CPU, X86_FIRST_CPU], known):
            line = line.replace(word, there)
        check_attributes(line, " ".join(known))
        return line
    if line.startswith("declare "):
        check_declared(line)
    if "@" in line:
        line = NAMED.sub(lambda found: f"@{NAMES[found[1]]}(", line)
        if SHUFFLE in target.defined:
            line = line.replace(SHUFFLE, PORTABLE_SHUFFLE)
    if not line.startswith((";", "!")) and FOREIGN.search(re.sub(r'"[^"]*"', "", line.replace(SHUFFLE, ""))):
        stop(line, "a part of another machine")
    return line


def for_target(text, name):
    """The module for a target, as text, and the names of the functions that it exports."""
    target = TARGETS[name]
    left_out = [f"{name}(" for name in [*target.defined, TWICE]]
    lines = [line for line in text.splitlines()
             if not (line.startswith("declare ") and any(name in line for name in left_out))]
    made = [converted(line, target) for line in lines]
    exported = [found[1] for line in lines if (found := re.match(r"define (?!internal).*?@(\w+)\(", line))]
    return "\n".join([*made, "", *target.definitions(), ""]), exported
