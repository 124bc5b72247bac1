# The crate `name` of crates.txt and those that it stands on, in the order in which rt proves them:
# each after those that its line names, and what these stand on, as they come there.

{ sub(/#.*/, "") }

/:/ {
    crate = $1
    sub(/:.*/, "", crate)
    sub(/^[^:]*:/, "")
    stands_on[crate] = $0
}

function visit(crate,    below, n, k) {
    if (crate in seen || !(crate in stands_on)) return
    seen[crate]
    n = split(stands_on[crate], below)
    for (k = 1; k <= n; k++) visit(below[k])
    print crate
}

END { visit(name) }
