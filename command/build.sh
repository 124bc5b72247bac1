# Proves and builds a program, one run at a time in a checkout. A part of wuthracomb, which calls it
# in the checkout's folder.

# build CRATE: its program is there, proved, and just as rt built it. What rt builds is known by its
# hash; a program that is not that is removed, with the mark by which rt would pass it over.
build() {
    name=$1 program=crates/$1/out/$1 hash=crates/$1/out/$1.sha256
    lock
    if ! fits; then
        rm -rf "$program" "$hash" "$program.stamp" ||
            stop "a damaged program can't be removed: $home/$program"
    fi
    prove
    [ -x "$program" ] || stop "rt found no fault, but there is no program $home/$program"
    fits || { sum_of "$program" > "$hash"; } 2> /dev/null ||
        stop "the hash of the program can't be kept in $home/$hash"
}

# fits: the program has the hash that was kept when rt built it.
fits() {
    [ -x "$program" ] && [ -f "$hash" ] && [ "$(cat "$hash")" = "$(sum_of "$program")" ]
}

# lock: waits until no other run is at work here. The system keeps the lock for as long as this run
# lives, or an rt that it began; so none is left behind, and no two rt disturb each other.
lock() {
    said=$(mkdir -p target 2>&1) || stop "$home/target can't be made: ${said##*: }"
    { command exec 9> target/lock; } 2> "$scratch/said" ||
        stop "$home/target can't be written: $(cause < "$scratch/said")"
    ! flock -n 9 2> /dev/null || return 0
    say "another run is at work in this checkout; waiting for it to end"
    await flock 9 || stop "the lock can't be had: $home/target/lock: $(cause < "$scratch/said")"
}

# prove: rt proves and builds what is stale, and runs the program once on no input; meanwhile it is
# said which crate is being proved.
prove() {
    begin_watch
    # shellcheck disable=SC2016
    await sh -c 'cd "crates/$1" && exec rt run' sh "$name" 3< /dev/null > "$scratch/rt"
    ended=$?
    end_watch
    [ "$ended" -eq 0 ] || ! grep -q '^rt: running ' "$scratch/said" ||
        stop "the program is proved, and $(how "$ended") when rt ran it"
    [ "$ended" -le 128 ] || stop "rt $(how "$ended"); what is proved stays proved"
    [ "$ended" -eq 0 ] || stop "the program is not proved: $(first_error)"
    ! any_begun || say "proved and built in $(($(date +%s) - began)) s"
}

# first_error: what rt named as the cause, in a line.
first_error() {
    ROOT=$home/ LC_ALL=C awk -f "$home/command/error.awk" "$scratch/rt" "$scratch/said"
}
