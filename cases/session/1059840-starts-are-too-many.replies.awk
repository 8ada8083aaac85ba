# The replies to a desk with 32 telescopes and 23 requests of one slice each. A request may start at each of the 1,440 slices of the
# horizon on each telescope, which makes 23 * 32 * 1,440 = 1,059,840 possible starts, and at most 1,048,576 are planned.

function accepted(before, told) {
    printf "{%s\"caller\":0,%s,\"version\":%d}\n", before, told, version++
}

function ok(word) {
    return "\"line\":" ++line ",\"ok\":\"" word "\""
}

BEGIN {
    accepted("", ok("opened"))
    accepted("", ok("instrument"))
    for (telescope = 0; telescope < 32; telescope++)
        accepted("", ok("telescope") ",\"telescope\":" telescope)
    accepted("", ok("night"))
    accepted("", ok("visibility"))
    accepted("\"balance\":10000,", ok("granted"))
    for (group = 1; group <= 23; group++)
        accepted("", "\"group\":" group ",\"ipp_charged\":0," ok("submitted") ",\"requests\":[" group "]")
    print "{\"caller\":0,\"line\":61,\"ok\":\"taken\",\"version\":60}"
    print "{\"caller\":0,\"count\":1059840,\"line\":61,\"no\":38,\"refused\":\"TooManyStarts\",\"version\":60}"
}
