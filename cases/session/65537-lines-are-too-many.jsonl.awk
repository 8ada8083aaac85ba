# 65,537 empty lines, one more than an input may have.
BEGIN {
    for (line = 1; line <= 65537; line++) {
        print ""
    }
}
