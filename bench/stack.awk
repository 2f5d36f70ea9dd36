# The stack that each exported function needs, from the header (part=header) and from what `objdump -t -d -r -w --no-show-raw-insn` says of the archives
# (part=listing). bench/stack runs it.
#
# Every instruction of a function is given its depth: the bytes between the return address and the stack pointer. The way there is followed through
# every jump. An instruction that is reached with two depths, one on the stack pointer that is not known here, a byte below the stack pointer that is
# addressed by a copy of it or by an index, or a call of a function whose code is not there ends the program: no figure is better than a wrong one. What it
# cannot see is an address below the stack pointer that is worked out in a register, and a jump through a register out of a function that has a table of
# jumps too; neither is in the archives, and tests/stack.c sees what either would do.
#
# There may be several objects, each with functions of its own under the same names. So a function is known by its object's number before its name.

function fail(text) {
    print "stack: " (at == "" ? "" : plain(at) ": ") text > "/dev/stderr"
    failed = 1
    exit 1
}

# A number as objdump writes it, with or without 0x. One of 16 digits that begins with ffffffff is negative; awk has no numbers so long.
function number(text,    i, n) {
    sub(/^0x/, "", text)
    if (text ~ /^ffffffff......../)
        return number(substr(text, 9)) - 4294967296
    for (i = 1; i <= length(text); i++)
        n = 16 * n + index("0123456789abcdef", substr(text, i, 1)) - 1
    return n + 0
}

# The name of a function without its object's number, and without the types that it was compiled for, which stand there as a checksum.
function plain(f) {
    sub(/^[0-9]+\//, "", f)
    sub(/::<.*/, "", f)
    return f
}

# The header: every name before a parenthesis, outside comments and what is for the preprocessor, is a function that it declares.
part == "header" {
    rest = $0
    text = ""
    while (rest != "") {
        i = index(rest, comment ? "*/" : "/*")
        if (!comment)
            text = text (i ? substr(rest, 1, i - 1) : rest)
        if (i)
            comment = !comment
        rest = i ? substr(rest, i + 2) : ""
    }
    while (text !~ /^ *#/ && match(text, /uj_[a-z0-9_]+\(/)) {
        declared[++declarations] = substr(text, RSTART, RLENGTH - 1)
        is_declared[declared[declarations]] = 1
        text = substr(text, RSTART + RLENGTH)
    }
    next
}

/: +file format / {
    object++
    name = ""
}

# A function that can be called from outside its object, by the flags of the symbol table.
/^[0-9a-f]+ ([gu!].|.w)....F / {
    if ($NF in global)
        fail($NF " is there twice")
    global[$NF] = object "/" $NF
}

/^[0-9a-f]+ <.*>:$/ {
    name = $0
    sub(/^[0-9a-f]+ </, "", name)
    sub(/>:$/, "", name)
    name = object "/" name
    next
}

# An instruction: its address, its name and its operands. Prefixes say nothing about the stack.
/^ *[0-9a-f]+:\t/ && name != "" {
    split($0, parts, "\t")
    place = parts[1]
    gsub(/[ :]/, "", place)
    text = parts[2]
    while (sub(/^(notrack|bnd|lock|rep|repz|repnz|data16|cs) +/, "", text)) { }
    i = ++count[name]
    address[name, i] = number(place)
    found[name, address[name, i]] = i
    operation[name, i] = text
    sub(/ .*/, "", operation[name, i])
    sub(/^[^ ]+ */, "", text)
    sub(/ *#.*/, "", text)
    operands[name, i] = text == operation[name, i] ? "" : text
    # With -w the relocation of an instruction stands on its line or the next.
    if (match($0, /R_X86_64_(PLT32|PC32)\t/))
        outside[name, i] = callee_of(substr($0, RSTART + RLENGTH))
    next
}

/R_X86_64_(PLT32|PC32)\t/ && name != "" {
    text = $0
    sub(/.*R_X86_64_(PLT32|PC32)\t/, "", text)
    outside[name, count[name]] = callee_of(text)
}

# The function that a relocation names: by its own section or by its symbol, less the four bytes of the place itself.
function callee_of(text) {
    sub(/^\.text\./, "", text)
    if (!sub(/-0x4$/, "", text))
        return "?" text
    return text
}

# The bytes by which instruction i of f lowers the stack pointer at once, for variables; negative where it gives them back.
function lowered(f, i,    op, args, bytes) {
    op = operation[f, i]
    args = operands[f, i]
    if (op !~ /^(sub|add)q?$/ || args !~ /^\$0x[0-9a-f]+,%rsp$/)
        return 0
    bytes = number(substr(args, 2, index(args, ",") - 2))
    return op ~ /^sub/ ? bytes : -bytes
}

# The depth behind instruction i of f.
function behind(f, i, d,    op, args) {
    op = operation[f, i]
    args = operands[f, i]
    if (lowered(f, i))
        return d + lowered(f, i)
    if (op ~ /^pushq?$/)
        return d + 8
    if (op ~ /^popq?$/ && args != "%rsp")
        return d - 8
    if (args ~ /(^|,)%[er]?spl?$/ && op !~ /^(cmp|test)/ || args ~ /^%[er]?spl?,/ && op ~ /^(xchg|xadd)/ ||
        op ~ /^(leave|enter|push|pop)/ && op !~ /^popcnt/)
        fail("not understood: " op " " args)
    return d
}

# Bytes that the instruction uses below the stack pointer, which the ABI allows in a function that calls none.
function below(f, i,    text) {
    text = operands[f, i]
    if (!match(text, /-0x[0-9a-f]+\(%rsp/))
        return 0
    return number(substr(text, RSTART + 1, RLENGTH - 6))
}

# Notes that f calls another function, of its own object or a global one, at that depth. After a jump to a function the return address is f's own.
function note_call(f, callee, d, jumped,    own) {
    if (callee ~ /^\?/ || callee == "")
        fail("a call whose function is not named")
    own = f
    sub(/\/.*/, "/", own)
    if ((own callee) in count)
        callee = own callee
    else if (callee in global)
        callee = global[callee]
    else
        fail("it calls " callee ", whose code is not there")
    calls[f]++
    called[f, calls[f]] = callee
    call_depth[f, calls[f]] = d + (jumped ? 0 : 8)
}

# The address that a jump inside a function names.
function target_of(f, i,    text) {
    text = operands[f, i]
    sub(/ .*/, "", text)
    text = number(text)
    if (!((f, text) in found))
        fail("a jump to a place that is no instruction")
    return found[f, text]
}

function visit(f, i, d) {
    todo++
    todo_place[todo] = i
    todo_depth[todo] = d
}

# Follows the way from instruction i on, until it ends; where it parts, the other branch is put aside.
function follow(f, i, d,    op) {
    for (;; i++) {
        if (i > count[f])
            fail("the way leaves the function at its end")
        if ((f, i) in depth) {
            if (depth[f, i] != d)
                fail("an instruction with two depths")
            return
        }
        depth[f, i] = d
        note_use(f, i, d)
        op = operation[f, i]
        if (op ~ /^retq?$/) {
            if (d != 0)
                fail("a return with something on the stack")
            return
        }
        if (op ~ /^(ud2|hlt|int3)$/)
            return
        if (op ~ /^callq?$/) {
            if (operands[f, i] ~ /^\*/)
                fail("a call through a register")
            note_call(f, (f, i) in outside ? outside[f, i] : symbol_of(operands[f, i]), d, 0)
        } else if (op ~ /^jmpq?$/ && operands[f, i] ~ /^\*/) {
            if (operands[f, i] !~ /^\*%r[a-z0-9]+$/)
                fail("not understood: " op " " operands[f, i])
            if (f in table_depth && table_depth[f] != d)
                fail("jumps through tables at two depths")
            table_depth[f] = d
            return
        } else if (op ~ /^j/ && (f, i) in outside)
            note_call(f, outside[f, i], d, 1)
        else if (op ~ /^j/)
            visit(f, target_of(f, i), d)
        if (op ~ /^jmpq?$/)
            return
        d = behind(f, i, d)
        if (d > peak[f])
            peak[f] = d
    }
}

# Ends the program where instruction i of f may use bytes below the stack pointer that its displacement does not tell: by a copy of the stack pointer, as a
# frame pointer is one, or by an index.
function refuse_hidden(f, i,    args, copy) {
    args = operands[f, i]
    if (operation[f, i] ~ /^movq?$/ && args ~ /^%rsp,%r[a-z0-9]+$/)
        copies[f, substr(args, 6)] = 1
    if (args ~ /-0x[0-9a-f]+\(%rsp,/)
        fail("not understood: " operation[f, i] " " args)
    if (match(args, /-0x[0-9a-f]+\(%r[a-z0-9]+/)) {
        copy = substr(args, RSTART, RLENGTH)
        sub(/.*\(/, "", copy)
        if ((f, copy) in copies)
            fail("not understood: " operation[f, i] " " args ", by a copy of the stack pointer")
    }
}

# Notes how deep instruction i of f goes, and how much it keeps for variables: above the stack pointer, and below it.
function note_use(f, i, d) {
    refuse_hidden(f, i)
    if (d + below(f, i) > peak[f])
        peak[f] = d + below(f, i)
    if (below(f, i) > under[f])
        under[f] = below(f, i)
    if (lowered(f, i) > above[f])
        above[f] = lowered(f, i)
}

# The function that a call inside one section names.
function symbol_of(text) {
    sub(/^[^<]*</, "", text)
    sub(/>.*/, "", text)
    return text
}

# All ways of a function. What only a table of jumps leads to is followed from the table's depth; what is left then is padding.
function measure(f,    i, by_table) {
    at = f
    peak[f] = under[f] = above[f] = 0
    visit(f, 1, 0)
    for (;;) {
        while (todo > 0) {
            todo--
            follow(f, todo_place[todo + 1], todo_depth[todo + 1])
        }
        for (i = 1; i <= count[f] && ((f, i) in depth || operation[f, i] ~ /^(nop|xchg|int3)/); i++) { }
        if (i > count[f])
            break
        if (!(f in table_depth))
            fail("an instruction that nothing leads to")
        by_table = 1
        visit(f, i, table_depth[f])
    }
    if (f in table_depth && !by_table)
        fail("a jump through a register, and no table")
}

# The bytes that f needs, its return address included. `chain` has the calls that need them, with what each function holds when it calls the next, and
# `variables` the most that one function on any way from f keeps for its variables.
function need(f,    i, callee, bytes) {
    if (f in needed)
        return needed[f]
    at = f
    if (f in active)
        fail("recursion")
    active[f] = 1
    measure(f)
    bytes = 8 + peak[f]
    chain[f] = bytes
    variables[f] = above[f] + under[f]
    for (i = 1; i <= calls[f]; i++) {
        callee = called[f, i]
        if (call_depth[f, i] + need(callee) > bytes) {
            bytes = call_depth[f, i] + need(callee)
            chain[f] = call_depth[f, i] " + `" plain(callee) "` " chain[callee]
        }
        if (variables[callee] > variables[f])
            variables[f] = variables[callee]
    }
    delete active[f]
    return needed[f] = bytes
}

END {
    if (failed)
        exit 1
    at = ""
    if (declarations == 0)
        fail("the header declares no function uj_...")
    for (name in global)
        if (!(name in is_declared))
            fail("the header does not declare " name)
    for (i = 1; i <= declarations; i++)
        if (!(declared[i] in global))
            fail(declared[i] " is declared, and not in the archives")
    for (i = 1; i <= declarations; i++)
        need(global[declared[i]])
    print "| Function | Bytes | Variables | Deepest chain |"
    print "|---|---|---|---|"
    for (i = 1; i <= declarations; i++) {
        f = global[declared[i]]
        printf "| `%s` | %d | %d |%s |\n", declared[i], needed[f], variables[f], chain[f] ~ /\+/ ? " " chain[f] : ""
    }
}
