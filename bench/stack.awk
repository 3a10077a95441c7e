# Reads `objdump -dr` of the archive: for each call of smp the bytes of stack that it takes, with all that it calls: return address, pushes and the
# frame of each function on the deepest way down. Functions that became part of their caller are counted there.
function hex(s,    i, n) {
    for (i = 1; i <= length(s); i++) n = n * 16 + index("0123456789abcdef", substr(s, i, 1)) - 1
    return n
}
function deepest(f,    i, n, most, down) {
    if (!(f in frame)) return 8
    for (i = 1; i <= calls[f]; i++) {
        down = deepest(callee[f, i])
        if (down > most) most = down
    }
    return frame[f] + most
}
/^[0-9a-f]+ <.*>:$/ { f = substr($2, 2, length($2) - 3); frame[f] = 8; order[++n] = f }
$2 == "push" { frame[f] += 8 }
$2 == "sub" && $3 ~ /^\$0x[0-9a-f]+,%rsp$/ { split(substr($3, 4), part, ","); frame[f] += hex(part[1]) }
/R_X86_64_PLT32/ { to = $3; sub(/^\.text\./, "", to); sub(/-0x4$/, "", to); callee[f, ++calls[f]] = to }
END {
    for (i = 1; i <= n; i++) printf "| `%s` | %d | %d |\n", order[i], frame[order[i]], deepest(order[i])
}
