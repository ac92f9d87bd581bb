# Reads an LLVM module as text and prints it for any little-endian machine: without its own machine's names, and with no jump tables, no
# floating point and no stack probes in its functions. Refuses, in one line and with status 1, what would mean something else on
# another machine, or what a port cannot carry. What is not known to be the same everywhere is refused.

function refuse(what) {
    print "ports: the module cannot be carried to other machines: " (name == "" ? "" : name ": ") what > "/dev/stderr"
    refused = 1
    exit 1
}

BEGIN {
    known("alloca load store getelementptr call br switch ret unreachable phi select icmp zext sext trunc freeze", opcode)
    known("add sub mul udiv urem sdiv srem and or xor shl lshr ashr", opcode)
    known("insertvalue extractvalue", opcode)
    known("i1 i8 i16 i32 i64", number)
    known("memmove memcpy memset", intrinsic)
    known("umin umax smin smax abs ctlz cttz ctpop bswap fshl fshr usub.sat uadd.sat ssub.sat sadd.sat", intrinsic)
}

function known(words, list,    all, i, n) {
    n = split(words, all, " ")
    for (i = 1; i <= n; i++) list[all[i]] = 1
}

{ line[NR] = $0 }

# the first reading: what the module defines, and the attributes of its functions
/^define / {
    defined[called($0)] = 1
    for (i = 1; i <= NF; i++) if ($i ~ /^#[0-9]+$/) body[$i] = 1
}

# the name behind the first @, with its quotes
function called(text,    rest) {
    rest = substr(text, index(text, "@") + 1)
    if (rest ~ /^"/) return substr(rest, 1, index(substr(rest, 2), "\"") + 1)
    match(rest, /^[A-Za-z0-9._$]+/)
    return substr(rest, 1, RLENGTH)
}

# the text without names of values, functions and blocks, and without what stands behind it as metadata
function bare(text) {
    gsub(/[@%]"[^"]*"/, "@", text)
    gsub(/[@%][-A-Za-z0-9._$]+/, "@", text)
    sub(/(, !.*)?$/, "", text)
    sub(/ *;.*$/, "", text)
    return text
}

# types and words that are the same on every machine. An answer may be two numbers, or an address and a length of 64 bits: where numbers
# of 64 bits are aligned to 8 bytes, as on all the ports' machines, these lie in memory alike
function check_words(text,    all, i, n) {
    gsub(/\{ (i(8|16|32|64), i(8|16|32|64)|ptr, i64) \}/, "pair", text)
    if (text ~ /[<{]/) refuse("a vector or a struct: " text)
    if (text ~ /addrspace|volatile|atomic|asm |ptrtoint|inttoptr|addrspacecast|blockaddress|byval|sret|inalloca/) refuse(text)
    n = split(text, all, /[^A-Za-z0-9_.]+/)
    for (i = 1; i <= n; i++) {
        if (all[i] ~ /^i[0-9]+$/ && !(all[i] in number)) refuse("numbers of " substr(all[i], 2) " bits: " text)
        if (all[i] == "null") refuse("an address that is a number: " text)
        if (all[i] ~ /^(half|bfloat|float|double|fp128|x86_fp80|ppc_fp128|x86_amx)$/) refuse("floating point: " text)
    }
}

function check_call(text,    to, base) {
    if (text !~ /call [^(]*@/) refuse("a call of no named function: " text)
    to = called(text)
    if (to in defined) return
    if (to !~ /^llvm\./) refuse("a call of " to ", which the module does not define")
    base = substr(to, 6)
    sub(/(\.p0)*(\.i[0-9]+)*$/, "", base)
    if (!(base in intrinsic)) refuse("a call of " to)
    if (base ~ /^mem/ && text !~ /, i1 false\)/) refuse("volatile memory: " text)
}

function check_instruction(text,    plain, op) {
    plain = bare(text)
    # is there a buffer? An address that is none is the same question everywhere
    if (plain ~ /^ *@ = icmp (eq|ne) ptr @, null$/) return
    check_words(plain)
    sub(/^ *(@ = )?/, "", plain)
    sub(/^(tail|musttail|notail) /, "", plain)
    op = plain
    sub(/ .*$/, "", op)
    if (!(op in opcode)) refuse("an instruction that is not known to be the same everywhere: " plain)
    if (op == "call") check_call(text)
    if (op == "getelementptr" && plain !~ /^getelementptr (inbounds |nuw |nusw )*i8, ptr @, i64 [-@0-9]+$/)
        refuse("a place that is not counted in bytes: " plain)
    if (op ~ /^(load|store|alloca)$/ && plain !~ /, align [1248]$/) refuse("no alignment is given: " plain)
    if (op == "alloca" && plain !~ /^alloca (i[0-9]+|ptr|\[[0-9]+ x i8\]), align [1248]$/) refuse("memory of another shape: " plain)
    if (op == "icmp" && plain ~ / ptr /) refuse("a comparison of addresses: " plain)
}

function check_define(text,    plain) {
    name = called(text)
    plain = bare(text)
    sub(/ *\{$/, "", plain)
    check_words(plain)
    if (text ~ /^define internal /) return
    # of a narrower answer machines want different upper bits, and of a truth value too
    if (plain !~ /^define (noundef )?(i32|i64|void) @\(/ || plain ~ /i1[ ,)]/)
        refuse("an exported function with another answer or argument than C has everywhere: " plain)
}

function attributes(text) {
    gsub(/ "(probe-stack|stack-probe-size|target-cpu|tune-cpu|target-features)"(="[^"]*")?/, "", text)
    if (text ~ /"/) refuse("an attribute that is not known to be the same everywhere: " text)
    sub(/ *}$/, (body[$2] ? " noimplicitfloat \"no-jump-tables\"=\"true\" }" : " }"), text)
    return text
}

END {
    if (refused) exit 1
    for (at = 1; at <= NR; at++) {
        text = $0 = line[at]
        if (text ~ /^(target|source_filename) / || text ~ /^ *(;.*)?$/) continue
        if (text ~ /^attributes #/) text = attributes(text)
        else if (text ~ /^define /) check_define(text)
        else if (text ~ /^}/) name = ""
        else if (text ~ /^declare /) { if (called(text) !~ /^llvm\./) refuse("it needs " called(text)) }
        else if (text ~ /^  *(i[0-9]+ -?[0-9]+, label |\])/ || text ~ /^[^ ].*:( *;.*)?$/ || text ~ /^!/) { }
        else if (text ~ /^  /) check_instruction(text)
        else refuse(text)
        print text
    }
}
