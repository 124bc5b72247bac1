# wuthracomb log [--make] [FILE]: a log as text, and text as a log. A part of wuthracomb.

# A log has at most 2,048 records; the first bytes past them are enough to see that it is too long.
most=16392

log() {
    read_words --make "$@"
    need setsid
    make_scratch
    open_input
    if [ "$option" = yes ]; then make_log; else print_log; fi
}

# take_in_log: the log goes to `$scratch/input`, and its bytes as numbers to `$scratch/bytes`.
take_in_log() {
    take_in "$most"
    od -An -v -tu1 "$scratch/input" > "$scratch/bytes" || stop "the log's bytes can't be read"
}

# reason CARRIERS [BYTES]: the first thing in the log, or in the log with these bytes, that rule 13
# refuses; nothing where it is sound.
reason() {
    awk -v carriers="$1" -f "$home/command/record.awk" -f "$home/command/bytes.awk" \
        -f "$home/command/reason.awk" "${2:-$scratch/bytes}"
}

# print_log: what can be read of the log, then what is wrong with it.
print_log() {
    take_in_log
    awk -f "$home/command/record.awk" -f "$home/command/bytes.awk" -f "$home/command/text.awk" \
        "$scratch/bytes" > "$scratch/out" || stop "the log can't be printed"
    give "$scratch/out"
    why=$(reason 32)
    [ -z "$why" ] || stop "the log is not sound: $why"
}

# make_log: the log of a text, or the first line that can't be used.
make_log() {
    take_in 262145
    [ "$(wc -c < "$scratch/input")" -le 262144 ] || stop "the text is longer than 262,144 bytes"
    [ "$(tr -cd '\000' < "$scratch/input" | wc -c)" -eq 0 ] ||
        stop "this is no text, since it has zero bytes; a log is printed by wuthracomb log FILE"
    LC_ALL=C awk -v carriers=32 -f "$home/command/record.awk" -f "$home/command/make.awk" \
        "$scratch/input" > "$scratch/octets" || stop "$(tail -n 1 "$scratch/octets")"
    # shellcheck disable=SC2059
    printf "$(cat "$scratch/octets")" > "$scratch/out"
    give "$scratch/out"
}
