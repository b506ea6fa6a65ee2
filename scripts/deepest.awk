# How much stack each function sca_* may take: the bytes below its caller's stack pointer, over every path through the machine code.
#   objdump -dr --no-show-raw-insn ARCHIVE | awk -f scripts/deepest.awk

# What is not understood ends the run with status 1 and no answer, for a number too low would pass as a bound. Taken on trust: that what
# goes by an address in a frame, or by an index from one, stays above the stack pointer.
BEGIN {
    WORD = 8
    # what these take beyond their return address is the C library's affair
    split("memcpy memset memmove memcmp", library, " ")
    for (one in library) bytes[library[one]] = WORD
}

/^$/ || /^In archive .*:$/ || /: +file format elf64-x86-64$/ { next }
/^Disassembly of section .*:$/ { section = substr($0, 24, length($0) - 24); next }
/^[0-9a-f]+ <.*>:$/ { begin_function(name_in($0)); next }
/^ *[0-9a-f]+:\t[^\t]+$/ && functions > 0 { add_instruction(named[functions], substr($0, index($0, "\t") + 1)); next }
/^\t\t\t[0-9a-f]+: R_X86_64_[0-9A-Z]+\t./ && count > 0 { relocation[count] = relocation[count] substr($0, index($0, "_64_") + 4); next }
{ fail("line " NR " is not one of a listing for x86-64 without raw bytes: " $0) }

END {
    if (failed) exit 1
    for (one = 1; one <= functions; one++) if (named[one] ~ /^sca_/) answer = answer named[one] " " bytes_of(named[one]) "\n"
    if (answer == "") fail("no function sca_*")
    printf "%s", answer
}

function fail(why) {
    print "deepest.awk: " why | "cat 1>&2"
    close("cat 1>&2")
    failed = 1
    exit 1
}
function refuse(at, why) { fail(owner[at] ", " address[at] ", " shown[at] ": " why) }

# ---- the listing

function begin_function(name) {
    if (name in first) fail("two functions have the name " name)
    named[++functions] = name
    first[name] = count + 1
    last[name] = count
    delete bytes[name]
    if ($0 !~ /^0+ /) return
    if (section in opening) fail("two sections have the name " section)
    opening[section] = name
}

function add_instruction(name, line) {
    owner[++count] = name
    last[name] = count
    address[count] = substr($1, 1, index($1, ":") - 1)
    placed[name, address[count]] = count
    shown[count] = line
    sub(/ +(# .*)?$/, "", line)
    while (sub(/^(notrack|bnd|lock|rep[a-z]*|[c-gs]s|data16|addr32|rex[.A-Z]*) +/, "", line)) continue
    operands[count] = mnemonic[count] = line
    sub(/ .*/, "", mnemonic[count])
    sub(/^[^ ]+ */, "", operands[count])
    if (mnemonic[count] ~ /^(call|jmp|ret|pushf?|popf?)q$/) sub(/q$/, "", mnemonic[count])
}

# The name of '1a4 <name>' and '00000000000001a4 <name>:'.
function name_in(text) {
    sub(/^[0-9a-f]+ </, "", text)
    sub(/>:?$/, "", text)
    return text
}

# The number that a text begins with, as objdump writes it: 0x28, -0x80, or 0xffffffffffffff80 for the same. Of the last only the low
# half is read: the whole would lose its lowest bits in awk, and the code has 32 of them at most.
function number(text,    digits, wraps, value, at) {
    match(text, /0x[0-9a-f]+/)
    digits = substr(text, RSTART + 2, RLENGTH - 2)
    wraps = length(digits) == 16 && sub(/^ffffffff/, "", digits)
    for (at = 1; at <= length(digits); at++) value = value * 16 + index("123456789abcdef", substr(digits, at, 1))
    if (wraps) value -= 4294967296
    return text ~ /^-/ ? -value : value
}

# ---- what an instruction does

function is_jump(at) { return mnemonic[at] ~ /^(j|loop)/ }
function is_padding(at) { return mnemonic[at] ~ /^(nop[wl]?|int3)$/ || mnemonic[at] == "xchg" && operands[at] == "%ax,%ax" }
function goes_on(at) { return mnemonic[at] !~ /^(ret|jmp|ud[012].*)$/ }
function target(at) { return owner[at] SUBSEP substr(operands[at], 1, index(operands[at] " ", " ") - 1) }
function is_word(operand) { return operand ~ /^\$|^%r([a-z][a-z]|[89]|1[0-5])$|\)$/ }

# How far down it takes the stack pointer.
function taken(at, word, operand) {
    if (word == "call" && operand !~ /^\*/) return 0
    if (word == "pushf" || word == "push" && is_word(operand)) return WORD
    if (word == "popf" || word == "pop" && is_word(operand) && operand != "%rsp") return -WORD
    if (word == "sub" && operand ~ /^\$0x[0-9a-f]+,%rsp$/) return number(substr(operand, 2))
    if (word == "add" && operand ~ /^\$0x[0-9a-f]+,%rsp$/) return -number(substr(operand, 2))
    if (word == "lea" && operand ~ /^-?0x[0-9a-f]+\(%rsp\),%rsp$/) return -number(operand)
    # the address of what stands lowest in the frame, as lea gives that of what stands higher; in %rbp it would be a frame pointer
    if (word == "mov" && operand ~ /^%rsp,%r([a-d]x|[sd]i|[89]|1[0-5])$/) return 0
    if (word ~ /^(call|ret|push|pop$|pop[^c]|enter|leave|iret|l(call|jmp|ret)|sys|into?$|xbegin|hlt|\(bad\)|\.)/) refuse(at, "not understood")
    if (word == "lea" && operand ~ /^-0x[0-9a-f]+\(%rsp/ || operand ~ /-0x[0-9a-f]+\(%rsp,/)
        refuse(at, "it does not say how far below the stack pointer it goes")
    if (operand ~ /(^|,)%?([re]?sp|spl)(,|$)|\(%e?sp[,)]/) refuse(at, "not understood, and it has the stack pointer in it")
    return 0
}

# How far below the stack pointer it goes, or what it calls.
function beyond(at, operand,    down) {
    if (mnemonic[at] == "call") return bytes_of(callee(at))
    if (is_jump(at)) return (at in relocation) ? bytes_of(callee(at)) - WORD : 0
    if (match(operand, /-?0x[0-9a-f]+\(%rsp/)) down = -number(substr(operand, RSTART))
    return down > 0 ? down : 0
}

function callee(at,    name) {
    name = name_in(operands[at])
    if (at in relocation) {
        name = relocation[at]
        if (!sub(/^(PLT32|PC32)\t/, "", name) || !sub(/-0x4$/, "", name)) refuse(at, "not to a function's start: " relocation[at])
        if (name in opening) name = opening[name]
    }
    if (!(name in first) && !(name in bytes)) refuse(at, name " is not in the archive")
    if ((name in entered) && !(name in bytes)) refuse(at, "recursion into " name)
    return name
}

# A jump by a function's pointer looks the same, but nothing is added to that: a table's entry is added to the table's place.
function is_through_table(at,    register, sum, entry) {
    register = substr(operands[at], 2)
    sum = setter(at, register)
    entry = setter(sum, register)
    return mnemonic[sum] == "add" && mnemonic[entry] == "movslq" && operands[entry] ~ /^(0x0)?\(%[a-z0-9]+,%[a-z0-9]+,4\),/
}

# The nearest instruction before that sets a register, where no jump or call stands between; else 0.
function setter(at, register) {
    for (at--; at > 0 && goes_on(at) && !is_jump(at) && mnemonic[at] != "call"; at--)
        if (substr(operands[at], length(operands[at]) - length(register)) == "," register) return at
    return 0
}

# ---- the paths; a depth is in bytes below the return address, without it

function bytes_of(name,    at, most, here) {
    if (name in bytes) return bytes[name]
    entered[name] = 1
    find_depths(name)
    for (at = first[name]; at <= last[name]; at++) if (at in depth) {
        here = WORD + depth[at] + beyond(at, operands[at])
        if (here > most) most = here
    }
    return bytes[name] = most
}

# The entries of tables are not in the listing: they are taken to lead wherever nothing else does. Code that a jump leads to comes last,
# for that jump may stand in a table's code, and deeper. A depth that is supposed wrongly does not come out at 0 at a ret.
function find_depths(name,    pass, at) {
    if (last[name] < first[name]) fail(name " has no code")
    for (at = first[name]; at <= last[name]; at++) if (is_jump(at) && !(at in relocation)) targeted[target(at)] = 1
    spread(first[name], 0)
    for (pass = 1; pass <= 2; pass++) for (at = first[name]; at <= last[name]; at++)
        if (!(at in depth) && !is_padding(at) && (pass == 2 || nothing_leads_to(at))) {
            if (!(name in table_depth)) refuse(at, "nothing leads here")
            in_table[name] = 1
            spread(at, table_depth[name])
        }
    if ((name in table_depth) && !(name in in_table)) fail(name " jumps through a table that leads out of it")
}

function nothing_leads_to(at,    before) {
    for (before = at - 1; is_padding(before); before--) continue
    return !goes_on(before) && !((owner[at], address[at]) in targeted)
}

function spread(at, down) {
    reach(at, down)
    while (pending > 0) follow(waiting[pending--])
}

function reach(at, down) {
    if (down < 0) refuse(at, "reached with the return address taken off")
    if ((at in depth) && depth[at] != down) refuse(at, "reached at depth " depth[at] " and at depth " down)
    if (!(at in depth)) waiting[++pending] = at
    depth[at] = down
}

function follow(at,    down) {
    down = depth[at]
    if (mnemonic[at] == "ret" && (down != 0 || operands[at] != "")) refuse(at, "returns at depth " down)
    if (is_jump(at)) jump(at, down, owner[at])
    if (!goes_on(at)) return
    if (at == last[owner[at]]) refuse(at, "runs past the end")
    reach(at + 1, is_jump(at) ? down : down + taken(at, mnemonic[at], operands[at]))
}

function jump(at, down, name) {
    if (operands[at] ~ /^\*/) {
        if (!is_through_table(at)) refuse(at, "no table is seen for it")
        if ((name in table_depth) && table_depth[name] != down) refuse(at, "at depth " down ", another at depth " table_depth[name])
        table_depth[name] = down
    } else if (at in relocation) {
        # the function that it goes to would return to what is still on the stack
        if (down != 0) refuse(at, "leaves the function at depth " down)
    } else if (target(at) in placed) reach(placed[target(at)], down)
    else refuse(at, "leads out of the function")
}
