# The replies to 65,536 lines, as many as an input may have, which are empty.
BEGIN {
    for (line = 1; line <= 65536; line++) {
        printf "{\"caller\":0,\"line\":%d,\"no\":1,\"refused\":\"NotJson\",\"version\":0}\n", line
    }
}
