# wuthracomb [--sum] [FILE]: re-runs a log. A part of wuthracomb, which has what it calls.

rerun() {
    read_words --sum "$@"
    need rt flock setsid sha256sum
    make_scratch
    open_input
    take_in_log
    cd "$home" || stop "its own folder can't be entered: $home"
    build rerun
    run_program 3< "$scratch/input"
    take_result
    [ "$option" = no ] || add_sum
    give "$scratch/out"
    ! grep -q '^refused 13$' "$scratch/out" || say_why
}

# run_program WORD..: what the program writes, its input on 3, goes to `$scratch/out`. It ended well.
# Nothing of the environment reaches it.
run_program() {
    await env -i "$program" "$@" > "$scratch/out"
    ended=$?
    case $ended in
    0) ;;
    126 | 127) stop "the program can't be started: $(cause < "$scratch/said")" ;;
    *) stop "the program $(how "$ended"), so there is no result" ;;
    esac
    why=$(cause < "$scratch/said")
}

# take_result: what the program wrote is a result.
take_result() {
    [ -s "$scratch/out" ] || stop "the program wrote no result${why:+: $why}"
    is_result "$scratch/out" ||
        stop "the program wrote no whole result: $(tr '\000\n' '  ' < "$scratch/out")"
}

# how STATUS: how a command ended.
how() {
    if [ "$1" -gt 128 ]; then
        printf 'was ended by the signal %s\n' "$(kill -l "$1")"
    else
        printf 'ended with status %s\n' "$1"
    fi
}

# is_result FILE: whole lines, and those of document 01, 'The program', for one carrier.
is_result() {
    [ "$(tail -c 1 "$1" | od -An -tu1 | tr -d ' ')" = 10 ] && awk '
        BEGIN { word = " -?[0-9]+" }
        NR == 1 && /^refused [0-9]+$/ { wanted = 1 }
        NR == 1 && /^steps [0-9]+$/ { wanted = 2 }
        NR == 2 && $0 !~ ("^0" word word word word word "$") { wanted = 0 }
        END { exit NR != wanted }' "$1"
}

# add_sum: after the result, the SHA-256 of the log. One that is too long is read on to its end.
add_sum() {
    sum=$(whole_log | sha256sum) && [ ! -e "$scratch/cut" ] || stop "the log's sum can't be taken"
    printf 'sha256 %s\n' "${sum%% *}" >> "$scratch/out"
}

# whole_log: all bytes of the log.
whole_log() {
    cat "$scratch/input"
    [ "$(wc -c < "$scratch/input")" -lt "$most" ] || cat <&3 || : > "$scratch/cut"
}

# say_why: what rule 13 refuses in the log, where the practice yard has one carrier.
say_why() {
    why=$(reason 1)
    say "${why:-why it is refused is not known}"
}
