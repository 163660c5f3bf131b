# The stack that a call needs, from the assembly of a program: of each function the return address, the
# registers it saves and its frame, and below it the deepest of what it calls. What is not in the
# assembly (the C library's memcpy, memmove and memset) counts as a return address alone.
#   awk -v names='A B' -f stack.awk FILE.s..     prints the bytes of each named function
function depth(f,    k, d, most, n, callee) {
    if (!(f in known)) return 8
    if (f in found) return found[f]
    most = frame[f]
    n = split(calls[f], callee, "\t")
    for (k = 1; k <= n; k++) { d = frame[f] + depth(callee[k]); if (d > most) most = d }
    n = split(jumps[f], callee, "\t")
    for (k = 1; k <= n; k++) { d = depth(callee[k]); if (d > most) most = d }
    return found[f] = most
}
function name(s) { sub(/@PLT.*/, "", s); sub(/[ \t]*#.*/, "", s); gsub(/"/, "", s); return s }
/^[^ \t#.][^ ]*:/ || /^"[^"]*":/ { f = $0; sub(/:[ \t]*(#.*)?$/, "", f); f = name(f); known[f] = 1; frame[f] = 8; next }
/^[ \t]*pushq[ \t]/ { frame[f] += 8 }
/^[ \t]*subq[ \t]+\$[0-9]+, %rsp/ { n = $2; gsub(/[$,]/, "", n); frame[f] += n }
/^[ \t]*callq?[ \t]/ { s = $0; sub(/^[ \t]*callq?[ \t]+/, "", s); calls[f] = calls[f] (calls[f] == "" ? "" : "\t") name(s) }
/# TAILCALL/ { s = $0; sub(/^[ \t]*jmp[ \t]+/, "", s); jumps[f] = jumps[f] (jumps[f] == "" ? "" : "\t") name(s) }
END {
    n = split(names, wanted, " ")
    for (k = 1; k <= n; k++) {
        if (!(wanted[k] in known)) { print "no function " wanted[k] > "/dev/stderr"; exit 1 }
        print wanted[k], depth(wanted[k])
    }
    if (all) for (f in known) print "frame", f, frame[f], "deep", depth(f), "calls", calls[f]
}
