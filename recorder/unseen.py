#!/usr/bin/env python3
"""What a recording can't see, found in compiled texts and in the objects of a program.

unseen.py OBJECT..    shows what `cilkrec` would say of a program of these objects
"""

import os
import re
import subprocess
import sys

ENTER = "__cyg_profile_func_enter"
GUARD = "_ZGV"  # of a function's static variable: the compiler's own atomic read
IR_ATOMIC = re.compile(r"\b(load atomic|store atomic|cmpxchg|atomicrmw|fence) ")
# Operations of the processor: those that take a pointer, but for those that touch no variable of the program's.
IR_VECTOR = re.compile(
    r"\bcall .*@llvm\.(masked\.(gather|scatter|expandload|compressstore)|x86\.(rdrand|rdseed)"
    r"|x86\.(?![\w.]*(clflush|clwb|monitor|prefetch|(ld|st)mxcsr))[\w.]+\([^)]*(\*|\bptr\b))"
)
IR_MASKED = re.compile(
    r"\bcall .*@llvm\.x86\.(?:(sse2)\.maskmov\.dqu|avx2?\.mask(load|store)\.\w+(?:\.256)?)\((.*?)\)(?: #\d+)?(, !dbg !\d+)?$"
)
IR_GATHER = re.compile(r"\bcall <(\d+) x \w+> @llvm\.x86\.avx2\.gather\.[\w.]+\((.*?)\)(?: #\d+)?(, !dbg !\d+)?$")
IR_VECTOR_TYPE = re.compile(r"<(\d+) x (i|float|double)(\d*)>")
IR_FUNCTIONS = {
    "cilkrec_load_here": "i8*, i64", "cilkrec_masked_128": "i8*, <2 x i64>, i64", "cilkrec_masked_256": "i8*, <4 x i64>, i64",
    **{f"cilkrec_gather_{i}_{m}": f"i8*, <{i // 64} x i64>, <{m // 64} x i64>, i64" for i in (128, 256) for m in (128, 256)},
}
IR_LOAD = re.compile(r"\bcall <(\d+) x i8> @llvm\.x86\.(sse3|avx)\.ldu\.dq[.\d]*\(i8\* (%[\w.]+)\)")
IR_ACCESS = re.compile(r"  call void @__asan_(load|store)(N|\d+)\(")
IR_PLACE = re.compile(r", !dbg !\d+")
IR_ASM = re.compile(r'\basm (?:(?:sideeffect|alignstack|inteldialect|unwind) )*"((?:[^"\\]|\\.)*)"')

THREADS = re.compile(
    r"(pthread_create|thrd_create|_ZNSt6thread\w*|_ZNSt7jthread\w*|fork|vfork|clone|(make|swap|get)context)$"
)
OPENMP = re.compile(r"(GOMP_|__kmpc_|omp_)")
OWN_OPENMP = set(
    "GOMP_taskloop GOMP_taskloop_ull __kmpc_global_thread_num __kmpc_taskgroup __kmpc_end_taskgroup "
    "__kmpc_omp_task_alloc __kmpc_taskloop".split()
)
LOCKS = re.compile(r"(pthread_(mutex|rwlock|spin|cond|barrier)_|mtx_|sem_)")
# What these give does its work later, out of sight: they are told in series, too.
LATER = re.compile(r"(dlv?sym|fmemopen|open_w?memstream|fopencookie|_ZNSt3pmr\w+_resource[CD]\dE\w*)$")
# Functions of libc that touch no memory of the program's, beside those that the runtime models.
HARMLESS = re.compile(
    r"(putchar|getchar|_?exit|abort|atexit|__assert_fail|malloc|calloc|realloc|free|memalign|aligned_alloc"
    r"|posix_memalign|p?valloc|clock"
    r"|sysconf|getpid|getppid|std(in|out|err)|environ|alloca|sleep|usleep|sched_yield|isatty"
    r"|close|dup2?|lseek(64)?|fileno|is(alnum|alpha|digit|space|upper|lower|print|punct|xdigit)|to(upper|lower)"
    r"|__ctype_\w+_loc|difftime|l?l?div|getpagesize|__getauxval|fegetround|strerror|strsignal"
    r"|abs|labs|(f?abs|sqrt|cbrt|exp2?|expm1|log(2|10|1p)?|pow|sin|cos|tan|a(sin|cos|tan2?)|sinh|cosh|tanh|floor|ceil"
    r"|round|trunc|fmod|hypot|f(min|max|dim|ma)|[il]+round|l+rint|rint|erfc?|nearbyint)[fl]?|isnan|isinf|fesetround"
    r"|raise|kill|alarm|__libc_single_threaded|longjmp|_?longjmp|siglongjmp|_?_?(sig)?setjmp|__main|main|__errno_location"
    r"|__(tsan|asan)_\w+|__cyg_profile_func_\w+|cilkrec_\w+|__stack_chk_fail|_GLOBAL_OFFSET_TABLE_|__dso_handle"
    r"|__cxa_((thread_)?atexit|finalize|guard_\w+|allocate_exception|free_exception|throw|rethrow|begin_catch"
    r"|end_catch"
    r"|get_exception_ptr|init_primary_exception|bad_cast|bad_typeid|pure_virtual|deleted_virtual|throw_bad_array\w*"
    r"|call_unexpected)"
    r"|_Unwind_\w+|__gxx_personality_v0|_Z(dl|da|nw|na)Pv\w*|_Z(nw|na)m\w*|_ZSt9terminatev|_ZTV\w+|_ZTI\w+"
    r"|_ZNK?Sa\w+|_ZNSt15__new_allocator\w+|_ZNSt9exceptionD\dEv|_ZNSt\d+bad_\w+[CD]\dEv|_ZNSt8ios_base4Init\w+"
    r"|_ZSt(4(cout|cerr|clog)|3cin)|_ZTTN?St\w+|_ZTHN?\w+|__start_\w+|__stop_\w+|_ZSt\d+__throw_\w+|__tls_get_addr)$"
)
# Parts of libstdc++ in runtime/containers.cc, and classes that runtime/classes.c follows.
CONTAINERS = re.compile(r"_ZSt\d+_Rb_tree_(in|de)crement|_ZSt\d+_Rb_tree_(insert_and_rebalance|rebalance_for_erase)"
                        r"|_ZNSt8__detail15_List_node_base(4swap|7_M_hook|9_M_unhook|10_M_reverse|11_M_transfer)E")
FOLLOWED = re.compile(r"_ZN?K?S[iod]|basic_[io]?(string|f)?stream|basic_ios|ios_base|_ZSt4(cout|cerr|clog)$|_ZSt3cin$"
                      r"|_ZNK?St\d+(\w+_error|invalid_argument|out_of_range)(C|D|aS|4what)"
                      r"|_ZNSt6locale(C|D|aS|7classic)")
SHOWN = 8
ATOMIC = "an atomic operation"  # as runtime/late.c names it


def readable(names):
    """Symbols' names in C++'s words."""
    if not any(name.startswith("_Z") for name in names):
        return names
    text = "\n".join(names) + "\n"
    try:
        found = subprocess.run(["c++filt"], input=text, capture_output=True, text=True).stdout.split("\n")[:-1]
    except OSError:
        return names
    return found if len(found) == len(names) else names


HERE = {"atomic": "cilkrec_atomic_here", "assembly": "cilkrec_assembly_here", "vector": "cilkrec_vector_here"}


def of_ir(line):
    """What a line of clang's text does that a recording can't hold, or None."""
    if IR_ATOMIC.search(line) and not (GUARD in line and "load atomic" in line):
        return None if 'syncscope("singlethread")' in line else "atomic"
    if " asm " in line:
        found = IR_ASM.search(line)
        if found and found[1].strip():
            return "assembly"
    return "vector" if IR_VECTOR.search(line) and not of_elements(line) else None


def parts_of(arguments):
    """A call's arguments in clang's text: those at the outermost commas."""
    found, depth = [""], 0
    for sign in arguments:
        depth += (sign in "<([{") - (sign in ">)]}")
        if sign == "," and depth == 0:
            found.append("")
        else:
            found[-1] += sign
    return [part.strip() for part in found]


def vector(argument):
    """(type, elements, bytes of one) of a vector among a call's arguments."""
    found = IR_VECTOR_TYPE.match(argument)
    size = int(found[3]) // 8 if found[2] == "i" else {"float": 4, "double": 8}[found[2]]
    return found[0], int(found[1]), size


def of_elements(line):
    """For a line of clang's text that loads or stores by a mask, or gathers: the runtime's function and the call, or None."""
    load = IR_LOAD.search(line)
    if load:
        return "cilkrec_load_here", f"  call void @cilkrec_load_here(i8* {load[3]}, i64 {load[1]})\n"
    found = IR_MASKED.search(line.rstrip("\n")) or IR_GATHER.search(line.rstrip("\n"))
    if not found:
        return None
    is_gather = found.re is IR_GATHER
    words, place = parts_of(found[2] if is_gather else found[3]), found[3] if is_gather else found[4]
    if is_gather:
        pointer, index, mask, scale = words[1:5]
        (itype, icount, isize), (mtype, count, size) = vector(index), vector(mask)
        how = size | isize << 8 | int(scale.split()[1]) << 16 | min(icount, count) << 24
        name, given = f"cilkrec_gather_{icount * isize * 8}_{count * size * 8}", f"{index}, {mask}"
        types = f"i8*, {itype}, {mtype}, i64"
    else:
        pointer, mask = (words[2], words[1]) if found[1] else words[:2]
        mtype, count, size = vector(mask)
        how = size | (0 if found[2] == "load" else 256)
        name, given, types = f"cilkrec_masked_{count * size * 8}", mask, f"i8*, {mtype}, i64"
    called = f"bitcast (void ({IR_FUNCTIONS[name]})* @{name} to void ({types})*)"
    return name, f"  call void {called}({pointer}, {given}, i64 {how}){place or ''}\n"


def told_ir(lines):
    """clang's text with a call of the runtime before each such line; an atomic operation isn't an access, too."""
    used, called, held = set(), set(), ""
    for line in lines:
        is_code = line.startswith("  ")
        what = of_ir(line) if is_code else None
        elements = of_elements(line) if "@llvm.x86." in line and is_code else None
        yield "" if what == "atomic" and IR_ACCESS.match(held) else held
        if what:
            used.add(HERE[what])
            place = IR_PLACE.search(line)
            yield f"  call void @{HERE[what]}(){place[0] if place else ''}\n"
        if elements:
            called.add(elements[0])
            yield elements[1]
        held = line
    yield held
    for name in sorted(called):
        yield f"\ndeclare void @{name}({IR_FUNCTIONS[name]})\n"
    for name in sorted(used):
        yield f"\ndeclare void @{name}()\n"


LABEL = re.compile(r"([A-Za-z_$][\w.$]*):")
HOOK = re.compile(r"(\s+call\s+\*?)__cyg_profile_func_(enter|exit)(?=\W)")
LOADED = re.compile(r"\s+(?:lea|mov|movabs)[lq]\s+\$?([A-Za-z_$][\w.$]*)(?:@\w+)?(?:\(%rip\))?, %")


def with_own_hooks(lines):
    """gcc's text, where the hooks of a function that lies in another one (`always_inline`) have names of their own."""
    function = loaded = ""
    for line in lines:
        label, address, hook = LABEL.match(line), LOADED.match(line), HOOK.match(line)
        if label:
            function = label[1]
        elif address:
            loaded = address[1]
        elif hook and loaded and function != loaded and not function.startswith(loaded + "."):
            line = HOOK.sub(r"\1cilkrec_inlined_\2", line, count=1)
        yield line


def told_assembly(lines, has_plugin):
    """gcc's text, where the load of a guard has a name of its own. Without the plugin a call of the runtime comes before inline
    assembly: each function calls the hooks, so it keeps nothing below its stack."""
    recent, held, is_code = [], [], False
    for line in with_own_hooks(lines):
        if ".cfi_startproc" in line or ".cfi_endproc" in line:
            is_code = "start" in line
        if line.startswith("#APP") and is_code and not has_plugin:
            held = [line]
            continue
        if held:
            held.append(line)
            if line.startswith("#NO_APP"):
                is_empty = all(not h.strip() or h.lstrip().startswith("#") for h in held)
                yield from held if is_empty else ["\tcall\tcilkrec_assembly_here\n", *held]
                held = []
            continue
        if "__tsan_atomic8_load" in line and any(GUARD in r for r in recent):
            line = line.replace("__tsan_atomic8_load", "cilkrec_guard_load")
        recent = recent[-4:] + [line]
        yield line
    yield from held


def told(lines, clang, has_plugin=False):
    """A compiled text with calls of the runtime before what a recording can't hold."""
    return told_ir(lines) if clang else told_assembly(lines, has_plugin)


def in_ir(lines):
    """(function, what) for each assembly outside of functions in clang's text."""
    for line in lines:
        if line.startswith("module asm"):
            yield "?", "assembly"


def in_assembly(lines):
    """What gcc's text has that can't be recorded: (function, what)."""
    function, inline, is_code, nested, begun = "?", False, False, {}, None
    for line in lines:
        found = re.match(r"([A-Za-z_][\w.]*):", line)
        if found:
            function = found[1]
            if re.fullmatch(r"(?!.*(_omp_fn|_omp_cpyfn|\.cold))\w+\.\d+", function):
                nested[function] = None
        elif ".cfi_startproc" in line or ".cfi_endproc" in line:
            is_code = "start" in line
            begun = function if is_code and function in nested else None
        elif begun and re.match(r"\s*\.loc \d+ [1-9]", line):
            yield begun.split(".")[0], f"a nested function {line.split()[2]}"
            begun = None
        elif line.startswith("#APP") or line.startswith("#NO_APP"):
            inline = line.startswith("#APP")
        elif inline and line.strip() and not line.lstrip().startswith("#") and not is_code:
            yield function, "assembly"
        elif re.search(r"\b(call|jmp)\s+__tsan_atomic128", line):
            yield function, ATOMIC


CALL = re.compile(
    r"^\s*(?:(?P<left>[^=]*?) = )?(?P<function>[^\"(]*[^\"( =](?:\(\))?) \((?P<words>.*)\);(?P<more>.*)$"
)
# gcc's own names of operations of the processor that read or write memory.
VECTORS = re.compile(r"__builtin_ia32_(mask(load|store|mov)|gather|scatter|movnt|lddqu|addcarry|sbb|rdrand|rdseed|rdtscp"
                     r"|load|store|expandload|compressstore|\w+mem_mask|movdqa\d+(load|store)|f?xsave|f?xrstor|4f"
                     r"|vp4dpwssd|vbroadcast(s[sd](256)?|f128_p[sd]256)$|aes(enc|dec)\w*kl|directstore|movdir|enqcmd"
                     r"|clzero|lwp)")
PASSED = ("__builtin___tsan_", "__tsan_", "cilkrec_", "__cyg_profile", "__complex__", "if", "switch", "register ")
FUNCTION = re.compile(r";; Function .*\((\w+), funcdef_no=")
DECLARED = re.compile(r"[\w*] \**(\w+)(?=[;,)])")
PLACES = re.compile(r"\[[^\[\]]*?:\d+(:\d+)?( discrim \d+)?\] ?")


def in_calls(lines, models):
    """Without the plugin: the calls of gcc's dump that take or give a whole structure, or have a name that is put in place."""
    lines = list(lines)
    functions = {found[1] for found in map(FUNCTION.match, lines) if found}
    functions -= {name for line in lines for name in DECLARED.findall(line)}
    found = []
    for line in lines:
        place = PLACES.match(line.lstrip())
        call = CALL.match(PLACES.sub("", line))
        if not call or call["function"].startswith(PASSED):
            continue
        at = place[0].strip("[] ").rsplit(":", 1)[0] + ": " if place else ""  # file and line
        words = [w for w in call["words"].split(", ") if w not in functions] if call["words"] else []
        # Not values in registers, nor places of the compiler's own on the stack.
        whole = re.compile(r"(MEM|TARGET_MEM_REF|\*)|(?!.*_\d+(\(D\))?$|D\.\d+$)[A-Za-z_][\w.>\[\]-]*$")
        if VECTORS.match(call["function"]):
            found.append(f"{at}`{call['function']}` isn't recorded without gcc's plugin (package gcc-N-plugin-dev); take clang")
        elif call["function"].startswith("__builtin_"):  # those of a fixed size are put in place; others are called
            is_fixed = any(w.isdigit() or '"' in w for w in words)
            if call["function"][10:] in models and is_fixed:
                found.append(f"{at}`{call['function']}` isn't recorded without gcc's plugin (package gcc-N-plugin-dev); "
                             f"call `{call['function'][10:]}`, or take clang")
            continue
        if "[return slot optimization]" in call["more"]:
            continue
        if any(whole.match(w) for w in words) or (call["left"] and whole.match(call["left"].strip())):
            found.append(f"{at}`{call['function']}` takes or gives a structure, which isn't recorded without gcc's plugin "
                         "(package gcc-N-plugin-dev); take clang")
    return list(dict.fromkeys(found))[:SHOWN]


def in_code(lines, clang):
    """What one compiled text has that can't be recorded, as messages."""
    found = {}
    for function, what in in_ir(lines) if clang else in_assembly(lines):
        found.setdefault((function, what), None)
    whys = {
        ATOMIC: "uses an atomic operation: what it orders isn't in a trace",
        "assembly": "uses assembly: its reads and writes aren't recorded",
        "a nested function": "is a function in a function: its reads and writes aren't recorded",
    }
    shown = list(found)[:SHOWN]
    names = readable([f for f, _ in shown])
    nested = "a nested function "
    return [f"{what[len(nested):]}: `{name}` {whys[nested[:-1]]}" if what.startswith(nested) else f"`{name}` {whys[what]}"
            for name, (_, what) in zip(names, shown)]


def symbols(path):
    """For each member of an object or archive the names that it defines as code, all that it defines, and needs."""
    out = subprocess.run(["nm", "-P", "-A", path], capture_output=True, text=True).stdout
    members = {}
    for line in out.split("\n"):
        found = re.match(r"(.*?): (\S+) (\S)", line)
        if found:
            code, defined, needed = members.setdefault(found[1], (set(), set(), set()))
            if found[3] in "Uw":
                needed.add(found[2])
            else:
                if found[3].isupper() or found[3] in "uv":  # not names of one file alone
                    defined.add(found[2])
                if found[3] in "TtW":
                    code.add(found[2])
    return members


def static_library(name, folders):
    """The file of -lNAME where that is a static library of the program's own folders."""
    for folder in folders:
        if os.path.exists(os.path.join(folder, f"lib{name}.so")):
            return None
        path = os.path.join(folder, f"lib{name}.a")
        if os.path.exists(path):
            return path
    return None


def libraries(options):
    """Static libraries among the linker's options, and the names of the other ones."""
    folders, archives, others, k = [], [], [], 0
    while k < len(options):
        word, k = options[k], k + 1
        if word in ("-L", "-l") and k < len(options):
            word, k = word + options[k], k + 1
        if word.startswith("-L"):
            folders.append(word[2:])
        elif word.startswith("-l") and word[2:] not in ("m", "c", "pthread", "dl", "rt", "stdc++", "gcc", "gcc_s"):
            archives.append(word[2:])
    found = {name: static_library(name, folders) for name in archives}
    others = [name for name in archives if not found[name]]
    return [path for path in found.values() if path], others


def in_program(objects, made, files, options, models=frozenset()):
    """([(what is refused, whether by a foreign object)], [what is only named], the models' names that it defines, those
    that it needs, the functions of libraries that no model records, whether it needs the recorder's own containers)."""
    archives, shared = libraries(options)
    shared += [f for f in files if f.endswith(".so") or ".so." in f]
    complaints, needed, defined = [], {}, set()
    for path in objects + archives:
        for member, (code, all_defined, all_needed) in symbols(path).items():
            if path not in made and code and ENTER not in all_needed:
                complaints.append((f"{member} wasn't compiled by cilkrec: its reads and writes aren't recorded", True))
            defined |= all_defined
            for name in all_needed:
                needed.setdefault(name, member)
    outside = {n: m for n, m in needed.items() if n not in defined}
    for name in sorted(outside):
        if THREADS.match(name):
            complaints.append((f"`{readable([name])[0]}` is called: threads and processes aren't recorded", False))
        elif OPENMP.match(name) and name not in OWN_OPENMP:
            complaints.append((f"`{name}` is called: of OpenMP only cilk_for's loops are recorded", False))
    modelled = sorted(models & set(outside))
    outside = {n: m for n, m in outside.items() if n not in models and not CONTAINERS.match(n)}
    return (complaints, notes(outside, shared), models & defined, modelled, unmodelled(outside),
            any(map(CONTAINERS.match, needed)))


def unmodelled(outside):
    """Names of libraries that may touch the program's memory unseen."""
    return sorted(n for n in outside if not any(p.match(n) for p in (HARMLESS, LOCKS, THREADS, OPENMP)))


def notes(outside, shared):
    """What of libraries isn't recorded, as messages."""
    found = [f"lib{name} isn't recorded" if ".so" not in name else f"{name} isn't recorded" for name in shared]
    if any(LOCKS.match(n) for n in outside):
        found.append("locks order nothing in a trace: accesses under one lock still race")
    names = sorted(set(readable([n for n in unmodelled(outside) if not FOLLOWED.search(n)])))
    if names:
        more = f" and {len(names) - SHOWN} more" if len(names) > SHOWN else ""
        found.append("not recorded is what these functions of libraries read and write: "
                     + ", ".join(names[:SHOWN]) + more)
    return found


def main(paths):
    """The command."""
    if not paths:
        sys.exit(__doc__)
    complaints, named = in_program(paths, set(), [], [])[:2]
    for line in [what for what, _ in complaints] + named:
        print(line)


if __name__ == "__main__":
    main(sys.argv[1:])
