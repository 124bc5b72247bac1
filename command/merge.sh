# wuthracomb merge ONE TWO: two logs merged into one. A part of wuthracomb, which has what it calls.

merge() {
    for word in "$@"; do
        case $word in
        -*) no_option "$word" ;;
        esac
    done
    [ $# -eq 2 ] || stop "two logs are to be given: wuthracomb merge ONE TWO"
    need rt flock setsid sha256sum
    make_scratch
    take_in_one one "$1"
    take_in_one two "$2"
    cd "$home" || stop "its own folder can't be entered: $home"
    build one_log
    run_program "$scratch/one" "$scratch/two" 3< /dev/null
    take_merged "$1" "$2"
    give "$scratch/out"
}

# take_in_one NAME FILE: the log goes to `$scratch/NAME`, and its bytes as numbers to
# `$scratch/NAME.bytes`.
take_in_one() {
    file=$2 files=1
    open_input
    take_in_log
    mv "$scratch/input" "$scratch/$1"
    mv "$scratch/bytes" "$scratch/$1.bytes"
}

# take_merged ONE TWO: what the program wrote is a log, of as many records as the two have together.
# One byte is a number: why the two can't be merged.
take_merged() {
    size=$(wc -c < "$scratch/out")
    [ "$size" -ne 1 ] || unmerged "$(od -An -tu1 "$scratch/out" | tr -d ' ')" "$1" "$2"
    [ "$(together)" = "$((size / 8))" ] && [ $((size % 8)) -eq 0 ] ||
        stop "the program wrote no whole log${why:+: $why}"
}

# together: how many records two sound logs have together, or why these can't be merged.
together() {
    awk -f "$home/command/bytes.awk" -f "$home/command/merge.awk" "$scratch/one.bytes" \
        "$scratch/two.bytes"
}

# unmerged NUMBER ONE TWO: there is no result, and this is why.
unmerged() {
    case $1 in
    13)
        why=$(reason 32 "$scratch/one.bytes")
        [ -z "$why" ] || stop "the log $2 is not sound: $why"
        why=$(reason 32 "$scratch/two.bytes")
        [ -z "$why" ] || stop "the log $3 is not sound: $why"
        ;;
    6 | 8)
        why=$(together)
        case $why in
        *' '*) stop "$why" ;;
        esac
        ;;
    esac
    stop "they are refused by $1, and why is not known"
}
