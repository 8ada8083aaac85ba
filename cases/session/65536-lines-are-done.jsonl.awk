# 65,536 empty lines, as many as an input may have.
BEGIN {
    for (line = 1; line <= 65536; line++) {
        print ""
    }
}
