# Of all that rt wrote, the line that names the cause: a fault of the system, else the first error
# of prover or compiler, else the first fact that is not proved, else what rt says of a library, else
# the last line. Paths are shortened; one within a crate has that crate before it.

/^rt: chose --jobs [0-9]+ for / { crate = $NF }

function keep(rank) {
    if (rank in found) return
    found[rank] = $0
    at[rank] = crate
}

/No space left|Permission denied|Read-only file|quota exceeded/ { keep(1) }
/: error/ { keep(2) }
/it is not proved that/ { keep(3) }
/^rt: .*did not build/ { keep(4) }
NF > 0 { found[5] = $0 }

# A line of thousands of letters is cut, not within one of UTF-8.
function cut(line) {
    if (length(line) <= 240) return line
    line = substr(line, 1, 240)
    sub(/[\300-\377][\200-\277]*$/, "", line)
    return line " .."
}

END {
    for (rank = 1; rank < 5 && !(rank in found); rank++) continue
    line = rank in found ? found[rank] : "rt ended without a word"
    sub(/^note: /, "", line)
    if (at[rank] != "" && line ~ /^(\.\/)?(src|specs|proofs)\//) {
        sub(/^\.\//, "", line)
        line = "crates/" at[rank] "/" line
    }
    root = ENVIRON["ROOT"]
    while ((at_root = index(line, root)) > 0)
        line = substr(line, 1, at_root - 1) substr(line, at_root + length(root))
    print cut(line)
}
