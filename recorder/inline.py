#!/usr/bin/env python3
"""Puts the recorder's fast path in place of the compilers' calls for accesses, in gcc's assembly and clang's LLVM IR.

An access goes to the runtime only if it is of memory that others may name (`span`), and if the shadow word of its
eight bytes doesn't say that the current strand made an access to the same bytes that was at least as strong. A
function's hooks go there only where they have something to do.

A call may change all registers that a callee may, so in assembly the path takes rax, rcx, rdx and rsi without saving
them; rdi has the address. In IR the path is a function that clang inlines, also by -O0.
"""
import re
import sys

CALL = re.compile(r"^\s+call\s+__tsan_(?:volatile_)?(read|write)([1248])(?:@PLT)?\s*$")
ENTER = re.compile(r"^\s+call\s+(\*?)__cyg_profile_func_enter\S*\s*$")
LEAVE = re.compile(r"^\s+call\s+(\*?)__cyg_profile_func_exit\S*\s*$")
JUMP = re.compile(r"^\s+jmp\s+__tsan_(?:volatile_)?(read|write)([1248])(?:@PLT)?\s*$")


def path(kind, size, k, tail):
    """The lines in place of one call; `tail`: it was a jump."""
    write = kind == "write"
    out = ["\tmovq\t%rdi, %rax", "\tsubq\tcilkrec_stack_low(%rip), %rax", "\tcmpq\tcilkrec_span(%rip), %rax"]
    out += [f"\tjb\t.Lcr{k}d"]
    if size > 1:
        out += [f"\ttestb\t${size - 1}, %dil", f"\tjne\t.Lcr{k}s"]
    out += ["\tmovq\t%rdi, %rdx", "\tbtcq\t$45, %rdx"]
    if size < 8:
        out += ["\tandq\t$-8, %rdx"]
    out += ["\tmovq\t(%rdx), %rax", "\txorq\tcilkrec_now(%rip), %rax"]
    out += [f"\ttestq\t${-256 if write else -65281}, %rax", f"\tje\t.Lcr{k}d"]  # all eight bytes
    if size < 8:
        mask = (1 << size) - 1 << (8 if write else 0)
        out += ["\tmovl\t%edi, %ecx", "\tandl\t$7, %ecx", f"\tmovl\t${mask}, %esi", "\tshll\t%cl, %esi"]
        out += ["\torq\t$-65536, %rsi", "\ttestq\t%rsi, %rax", f"\tje\t.Lcr{k}d"]
    out += [f".Lcr{k}s:", f"\tleaq\t.Lcr{k}r(%rip), %rsi", f"\tcall\tcilkrec_{kind}{size}"]
    out += [f".Lcr{k}d:"] + (["\tret"] if tail else [])
    out += ["\t.pushsection .data.cilkrec,\"aw\"", "\t.balign 8", f".Lcr{k}r:"]
    return out + [f"\t.quad 0, 0, 0, 0, {size << 8 | write}, 0, 0", "\t.popsection"]


def inlined(lines):
    """The changed text."""
    k = 0
    for line in lines:
        found = CALL.match(line) or JUMP.match(line)
        if found:
            yield from path(found[1], int(found[2]), k, "jmp" in line)
            k += 1
        elif ENTER.match(line):  # only the calls of a spawn's statement are of interest
            yield from ["\tcmpl\t$0, cilkrec_spawning(%rip)", f"\tje\t.Lcr{k}d", line, f".Lcr{k}d:"]
            k += 1
        elif LEAVE.match(line):  # only functions that have a frame, or that an exception left one in
            yield from ["\tcmpq\t%rbp, cilkrec_base(%rip)", f"\tja\t.Lcr{k}d", line, f".Lcr{k}d:"]
            k += 1
        else:
            yield line


IR_ACCESS = re.compile(r"^  call void @__asan_(load|store)([1248])\((i64 .*)\)((?:, !dbg !\d+)?)$")
IR_HOOK = re.compile(r"^  call void @__cyg_profile_func_(enter|exit)\(")
IR_LOCAL = re.compile(r"^  %[A-Za-z_.][^=]* = alloca [^%]*$")
IR_SITE = "[7 x i64]"  # `struct site` of runtime/recorder.h
IR_FRAME = "declare i8* @llvm.frameaddress.p0i8(i32 immarg)"
IR_HEAD = """
@cilkrec_stack_low = external dso_local global i64
@cilkrec_span = external dso_local global i64
@cilkrec_now = external dso_local global i64
@cilkrec_base = external dso_local global i64
@cilkrec_spawning = external dso_local global i32
declare void @cilkrec_slow(i64, [7 x i64]*)
"""
IR_PATH = """
define internal void @cilkrec_fast_{word}{size}(i64 %p, [7 x i64]* %site) alwaysinline nounwind {{
  %low = load i64, i64* @cilkrec_stack_low
  %span = load i64, i64* @cilkrec_span
  %height = sub i64 %p, %low
  %is_own = icmp ult i64 %height, %span
  br i1 %is_own, label %done, label %shared
shared:
  %odd = and i64 %p, {odd}
  %is_odd = icmp ne i64 %odd, 0
  br i1 %is_odd, label %slow, label %look
look:
  %there = xor i64 %p, 35184372088832
  %place = and i64 %there, -8
  %word = inttoptr i64 %place to i64*
  %known = load i64, i64* %word
  %now = load i64, i64* @cilkrec_now
  %lacks = xor i64 %known, %now
  %byte = and i64 %p, 7
  %bits = shl i64 {bits}, %byte
  %mask = or i64 %bits, -65536
  %new = and i64 %lacks, %mask
  %is_new = icmp ne i64 %new, 0
  br i1 %is_new, label %slow, label %done
slow:
  call void @cilkrec_slow(i64 %p, [7 x i64]* %site)
  br label %done
done:
  ret void
}}
"""
IR_HOOKS = """
define internal void @cilkrec_fast_{word}(i8* %function, i8* %place) alwaysinline {{
  %frame = call i8* @llvm.frameaddress.p0i8(i32 0)
  %base = ptrtoint i8* %frame to i64
  %top = load i64, i64* @cilkrec_base
  %is_below = icmp ult i64 %base, %top
  %spawning = load i32, i32* @cilkrec_spawning
  %is_quiet = icmp eq i32 %spawning, {quiet}
  %none = {none}
  br i1 %none, label %done, label %tell
tell:
  call void @__cyg_profile_func_{word}(i8* %function, i8* %place)
  br label %done
done:
  ret void
}}
"""


def ir_functions(used, declared):
    """The definitions of the paths that a text uses, each by its word and size."""
    out = [IR_HEAD]
    for word, size in sorted(used):
        if size:
            bits = ((1 << size) - 1) << (8 if word == "store" else 0)
            out.append(IR_PATH.format(word=word, size=size, odd=size - 1, bits=bits))
        else:
            none = "and i1 %is_below, %is_quiet" if word == "enter" else "and i1 %is_below, true"
            out.append(IR_HOOKS.format(word=word, quiet=0, none=none))
    if not declared and any(not size for _, size in used):
        out.append(f"\n{IR_FRAME}\n")
    return out


def after_locals(lines):
    """clang's text, where a function's variables come before its hook: what is inlined there begins a new block."""
    held = []
    for line in lines:
        if held and not IR_LOCAL.match(line):
            yield from held
            held = []
        is_enter = IR_HOOK.match(line) and "func_enter" in line
        if held or not is_enter:
            yield line
        else:
            held = [line]


def inlined_ir(lines):
    """clang's text with the path in place of its calls, where pointers have types in it (up to LLVM 14)."""
    out, used, sites, ordered = [], set(), [], list(after_locals(lines))
    for line, behind in zip(ordered, ordered[1:] + [""]):
        found, hook = IR_ACCESS.match(line), " = alloca " not in behind and IR_HOOK.match(line)
        if found:
            word, size = found[1], int(found[2])
            used.add((word, size))
            sites.append(size << 8 | (word == "store"))
            site = f"{IR_SITE}* @cilkrec_site_{len(sites)}"
            line = f"  call void @cilkrec_fast_{word}{size}({found[3]}, {site}){found[4]}"
        elif hook:
            used.add((hook[1], 0))
            line = line.replace(f"@__cyg_profile_func_{hook[1]}(", f"@cilkrec_fast_{hook[1]}(", 1)
        out.append(line)
    if not used or any(" ptr " in line for line in lines[:400]):
        return lines
    for k, what in enumerate(sites, 1):
        out.append(f"@cilkrec_site_{k} = internal global {IR_SITE} [i64 0, i64 0, i64 0, i64 0, i64 {what}, i64 0, i64 0], "
                   'section ".data.cilkrec", align 8')
    return out + ir_functions(used, any(line.startswith(IR_FRAME) for line in lines))


if __name__ == "__main__":
    text = open(sys.argv[1], encoding="latin-1").read().split("\n")
    with open(sys.argv[1], "w", encoding="latin-1") as f:
        f.write("\n".join(inlined(text)))
