# Which jumps of a function depend on its last argument, the occupancy: reads assembly of x86-64 (AT&T) or 64-bit Arm, machine=x86_64 or aarch64.
#
# What depends on the occupancy is followed through registers, flags and memory (one place for all of it), over every way that a run may take, until
# nothing more is found: an instruction's result depends on it if anything that it reads does. Where this program can't tell, it takes the worse case:
# a call, or an instruction that changes two places at once, is named as a jump, and an indirect jump may go to any label of its function.

function register(word) {
    if (machine == "aarch64") {
        if (word ~ /^[wx]([0-9]|[12][0-9]|30)$/) return "r" substr(word, 2)
        return word ~ /^[bhsdqv][0-9]+/ ? "v" substr(word, 2) + 0 : ""
    }
    sub(/^r(ax|bx|cx|dx|si|di|bp)$/, substr(word, 2), word)
    sub(/^e(ax|bx|cx|dx|si|di|bp)$/, substr(word, 2), word)
    if (word ~ /^[abcd][lh]$/) return substr(word, 1, 1) "x"
    if (word ~ /^(si|di|bp)l$/) return substr(word, 1, 2)
    sub(/[bdw]$/, "", word)
    return word ~ /^([abcd]x|[sd]i|bp|r[0-9]+|xmm[0-9]+)$/ ? word : ""
}

# The registers of an operand, one blank before each.
function registers(operand, found, word) {
    found = ""
    while (match(operand, /[a-z][a-z0-9]*/)) {
        word = register(substr(operand, RSTART, RLENGTH))
        if (word != "") found = found " " word
        operand = substr(operand, RSTART + RLENGTH)
    }
    return found
}

# Takes an instruction apart: op, what it reads, which register it writes, whether it has to do with memory, flags, jumps.
function take(line, text, count, operands, i, last) {
    op[line] = text
    sub(/[ \t].*/, "", op[line])
    sub(/^[^ \t]*[ \t]*/, "", text)
    while (match(text, /[([][^])]*,/)) text = substr(text, 1, RSTART + RLENGTH - 2) " " substr(text, RSTART + RLENGTH)
    count = split(text, operands, /, */)
    last = machine == "aarch64" ? 1 : count
    reads[line] = writes[line] = target[line] = ""
    memory[line] = text ~ /[([]/
    if (jump(op[line])) {
        if (text ~ /^\.?[A-Za-z_][A-Za-z_0-9.]*$/ && !registers(text)) target[line] = text
        else if (count > 1) target[line] = operands[count]
        for (i = 1; i <= count; i++) if (operands[i] != target[line]) reads[line] = reads[line] registers(operands[i])
        return
    }
    for (i = 1; i <= count; i++) {
        if (i != last || operands[i] ~ /[([]/ || keeps(op[line])) reads[line] = reads[line] registers(operands[i])
        if (i == last && operands[i] !~ /[([]/ && !tests(op[line])) writes[line] = registers(operands[i])
    }
    # Two registers are written by Arm's ldp and, unnamed, by x86-64's mul and div.
    if (op[line] ~ /^ldp/) writes[line] = writes[line] registers(operands[2])
    if (op[line] ~ /^(i?mul|i?div)[bwlq]$/ && count == 1) reads[line] = reads[line] (writes[line] = " ax dx")
    # x86-64: a register and itself, by xor, is 0 whatever it was.
    if (op[line] ~ /^(p?xor|xorp)[a-z]*$/ && count == 2 && operands[1] == operands[2]) reads[line] = ""
    # Arm: a store's first operand is what is stored.
    memory[line] = memory[line] || op[line] ~ /^(push|pop)/
    stores[line] = machine == "aarch64" ? op[line] ~ /^st/ : op[line] ~ /^push/ || memory[line] && operands[count] ~ /[(]/ && !tests(op[line]) && op[line] !~ /^lea/
    if (stores[line]) {
        reads[line] = reads[line] registers(operands[1])
        writes[line] = ""
    }
}

function jump(name) {
    return machine == "aarch64" ? name ~ /^(b|b\..*|br|blr?|cbn?z|tbn?z|ret|cas.*|swp.*|ldx.*)$/ : name ~ /^(j.*|call.*|ret.*|.*xchg.*|xadd.*|rep.*)$/
}

function always(name) {
    return name ~ /^(b|br|jmp.?|ret.?)$/
}

# Whether it writes flags alone.
function tests(name) {
    return machine == "aarch64" ? name ~ /^(cmp|cmn|tst|ccmp|ccmn)$/ : name ~ /^(cmp|test|bt)[bwlq]?$/
}

# Whether the place written is read too.
function keeps(name) {
    return machine == "aarch64" ? name ~ /^(movk|bfi|bfxil|ins|cmp|cmn|tst|ccmp|ccmn)$/ : name !~ /^(mov|lea|set|pop|imul3)/
}

function uses_flags(name) {
    return machine == "aarch64" ? name ~ /^(b\.|csel|cset|csinc|csinv|csneg|cinc|cinv|cneg|ccmp|ccmn|adc|sbc)/ : name ~ /^(j[^m]|cmov|set|adc|sbb)/
}

function sets_flags(name) {
    return machine == "aarch64" ? tests(name) || name ~ /^(adds|subs|ands|bics|negs)$/ : name !~ /^(mov|lea|set|cmov|not|push|pop|j|bswap)/
}

# Whether what it reads depends on the occupancy.
function depends(line, words, count, i) {
    count = split(reads[line], words, " ")
    for (i = 1; i <= count; i++) if ((line, words[i]) in at) return 1
    if (memory[line] && !stores[line] && op[line] !~ /^lea/ && (line, "memory") in at) return 1
    return uses_flags(op[line]) && (line, "flags") in at
}

# What depends on the occupancy after a line, handed to one that may come next.
function hand(line, next_line, found, i, name, count, words) {
    for (i = 1; i <= places; i++) {
        name = place[i]
        if (!((line, name) in at)) continue
        if (index(writes[line] " ", " " name " ") && !found) continue
        if (name == "flags" && !found && tests(op[line])) continue
        add(next_line, name)
    }
    if (!found) return
    count = split(writes[line], words, " ")
    for (i = 1; i <= count; i++) add(next_line, words[i])
    if (stores[line]) add(next_line, "memory")
    if (sets_flags(op[line])) add(next_line, "flags")
}

function add(line, name) {
    if (!(name in known)) {
        known[name] = 1
        place[++places] = name
    }
    if (!((line, name) in at)) {
        at[line, name] = 1
        changed = 1
    }
}

function judge(name, line, found, jumps, faults, i) {
    split("", at)
    split("", known)
    places = 0
    # The occupancy is the last argument: the third of `ray`, the second of the others.
    add(1, machine == "aarch64" ? (name == "ray" ? "r2" : "r1") : (name == "ray" ? "dx" : "si"))
    do {
        changed = 0
        for (line = 1; line <= lines; line++) {
            found = depends(line)
            if (target[line] in label) hand(line, label[target[line]], found)
            else if (always(op[line]) && op[line] !~ /^ret/) for (i in label) hand(line, label[i], found)
            if (!always(op[line])) hand(line, line + 1, found)
        }
    } while (changed)
    jumps = faults = 0
    for (line = 1; line <= lines; line++) {
        if (!jump(op[line]) || op[line] ~ /^(ret.?|b)$/ || (op[line] ~ /^jmp/ && target[line] in label)) continue
        jumps++
        if (!depends(line) && op[line] ~ /^(j|b\.|br$|cb|tb)/) continue
        faults++
        if (name != "jumping") printf "%s %s: a jump on the occupancy: %s %s\n", machine, name, op[line], target[line]
    }
    if (name != "jumping") {
        printf "%s %s: %d instructions, %d jumps that may go two ways, %d on the occupancy\n", machine, name, lines, jumps, faults
        bad += faults
        judged++
    } else seen = faults
}

/^[a-z_]+:/ {
    name = $1
    sub(/:.*/, "", name)
    lines = 0
    split("", label)
    next
}
name == "" { next }
/^\.Lfunc_end/ {
    judge(name)
    name = ""
    next
}
/^\.L[A-Za-z0-9_]+:/ {
    sub(/:.*/, "")
    label[$0] = lines + 1
    next
}
/^[ \t]+[a-z]/ {
    sub(/^[ \t]+/, "")
    sub(/[ \t]*(#|\/\/).*/, "")
    take(++lines, $0)
}
END {
    if (judged != 4) print machine ": not all four functions were found"
    if (!seen) print machine ": the jump of the function that has one was not found"
    exit bad > 0 || judged != 4 || !seen
}
