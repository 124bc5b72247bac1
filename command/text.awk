# A log as text, a record to a line: its number from 1, step, carrier, lever in words. What no sound
# log has is printed as it stands: other last bytes than zero, and bytes that are no whole record.

END {
    for (r = 0; r < 2048 && 8 * r + 7 < size; r++) {
        line = sprintf("%d  step %.0f  carrier %d  lever %d %s",
            r + 1, step_of(r), carrier_of(r), lever_of(r), words(lever_of(r)))
        print line (tail_of(r) == "0 and 0" ? "" : "  last bytes " tail_of(r))
    }
    if (size < 16384 && size % 8 != 0) {
        line = (r + 1) "  bytes"
        for (i = 8 * r; i < size; i++) line = line " " byte[i]
        print line
    }
}
