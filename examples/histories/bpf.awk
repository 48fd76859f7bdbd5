# Adds to a history the BPF programs that perf saw come and go, each at its own time:
#
#     perf script --show-bpf-events | awk -f bpf.awk - history >history.bpf
#
# perf has the times of the kernel's local clock, as the history has. A change of [bpf] drops all of
# its lines, so each one here lists every program that is loaded then.

# emit LIMIT: writes the changes whose times are below LIMIT
function emit(limit,   x, some) {
    for (; next_event <= events && at[next_event] + 0 < limit; next_event++) {
        if (is_gone[next_event]) delete name_at[addr[next_event]]
        else name_at[addr[next_event]] = name[next_event]
        if (!begun) continue
        print "change " at[next_event]
        some = 0
        for (x in name_at) { printf "%016s t %s\t[bpf]\n", x, name_at[x]; some = 1 }
        if (!some) print "gone bpf"
    }
}

BEGIN { next_event = 1 }

FNR == NR {
    if (!/PERF_RECORD_KSYMBOL .* type 1 /) next
    events++
    for (i = 1; i < NF; i++) {
        if ($i ~ /^[0-9]+\.[0-9]+:$/) at[events] = substr($i, 1, length($i) - 1)
        if ($i == "addr") addr[events] = $(i + 1)
        if ($i == "flags") is_gone[events] = $(i + 1) != "0x0"
        if ($i == "name") name[events] = $(i + 1)
    }
    next
}

/^(listing|change) / {
    emit($2 + 0)
    begun = 1
}

{ print }

END { emit(2 ^ 53) }
