# Writes a copy of a Rust file that says, on entering a block of code, on which line the block opens.
# With -v list=FILE it also writes those lines' numbers.
{ print }
/\{$/ {
    line = $0
    sub(/^[ ]+/, "", line)
    if (line ~ /^(use|struct|impl|pub\(crate\) struct|mod|match) / ||
        line ~ /(= match .*|Self|Hint) \{$/ && line !~ /^(pub )?fn /)
        next
    if (line ~ /^impl/ || !inside && line !~ /fn / && line !~ /^\)/)
        next
    inside = 1
    printf "crate::reached::at(%d);\n", NR
    print NR > list
}
