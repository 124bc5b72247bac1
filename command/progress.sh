# Says which crate rt is proving, while it does. A part of wuthracomb. rt proves one crate after the
# other; when it begins with one, it says so on standard error, which goes to `$scratch/said`.

# begin_watch: from here on `watch` runs beside this run.
begin_watch() {
    crates=$(in_order "$name")
    count=$(printf '%s\n' "$crates" | wc -l | tr -d ' ')
    : > "$scratch/said"
    began=$(date +%s)
    watch &
    watcher=$!
}

# end_watch: ends it, once it has looked for the last time. A shell that has just been forked may lose
# the signal, so a file says it too.
end_watch() {
    : > "$scratch/watched"
    { kill -s TERM "$watcher"; wait "$watcher"; } 2> /dev/null
    watcher=''
}

# watch: looks every second, until it is ended or its run is gone. It holds neither input nor lock.
watch() {
    exec 3<&- 9>&-
    told=' '
    trap 'look; erase; exit 0' TERM
    while [ ! -e "$scratch/watched" ] && kill -0 $$ 2> /dev/null; do
        look
        sleep 1 > /dev/null 2>&1 &
        wait $!
    done
    look
    erase
}

# look: says each crate that rt has begun since the last look. On a terminal it is one line that
# moves on: the crate that is being proved, and the time so far.
look() {
    number=0 present=''
    for crate in $crates; do
        number=$((number + 1))
        begun "$crate" || continue
        present="proving $crate, $number of $count"
        tell "$present"
    done
    [ ! -t 2 ] || [ -z "$present" ] ||
        printf '\r%-78s' "wuthracomb: $present ($(($(date +%s) - began)) s)" >&2
}

# tell LINE: says it, if it is new and this is no terminal; the first time, what goes on.
tell() {
    [ "$told" != ' ' ] || say "the program is proved and built first, which takes some minutes;" \
        "an interruption loses nothing that is proved"
    case $told in
    *" $crate "*) ;;
    *) [ -t 2 ] || say "$1" ;;
    esac
    told="$told$crate "
}

# erase: clears the line that moves on.
erase() {
    [ ! -t 2 ] || [ "$told" = ' ' ] || printf '\r%-78s\r' '' >&2
}

# begun CRATE: rt has begun to prove it in this run.
begun() {
    grep -q "^rt: chose --jobs [0-9]* for $1\$" "$scratch/said"
}

# any_begun: rt has begun to prove something in this run.
any_begun() {
    for crate in $crates; do ! begun "$crate" || return 0; done
    return 1
}

# in_order NAME: NAME and the crates that it stands on by crates.txt, as rt goes.
in_order() {
    awk -v name="$1" -f command/order.awk crates.txt
}
