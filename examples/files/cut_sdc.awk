{ sub(/\r$/, ""); line = line $0 }
sub(/\\$/, " ", line) { next }
{
    gsub(/\[[0-9]+\]/, "", line)
    word = line; sub(/^[ \t]+/, "", word); sub(/[ \t].*/, "", word)
    if (word ~ /^(current_design|create_clock|set_clock_groups|set_input_delay|set_case_analysis)$/) print line
    else if (word !~ /^#/ && word != "") print "left out: " word > "/dev/stderr"
    line = ""
}
