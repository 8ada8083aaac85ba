# The replies to a desk with 32 telescopes and 32 requests of one slice each. A request may start at each of the 1,024 slices of the
# horizon on each telescope, which makes 32 * 32 * 1,024 = 1,048,576 possible starts, as many as are planned. Then comes a request
# that may start at slice 0 of one telescope alone, and that is one start too many.
#
# A request is worth 10 * 1000 * 5 = 50,000. In the one round all prices are 0, so a telescope gives 50,000 at each slice, and the
# bound is 32 * 1,024 * 50,000 = 1,638,400,000. Each request in turn is placed at the earliest slice that is free on some telescope, on
# the lowest such one: that is slice 0 of the telescope after the one before. So the plan is worth 32 * 50,000 = 1,600,000.

function accepted(before, told) {
    printf "{%s\"caller\":0,%s,\"version\":%d}\n", before, told, version++
}

function ok(word) {
    return "\"line\":" ++line ",\"ok\":\"" word "\""
}

function submitted(group) {
    accepted("", "\"group\":" group ",\"ipp_charged\":0," ok("submitted") ",\"requests\":[" group "]")
}

BEGIN {
    accepted("", ok("opened"))
    accepted("", ok("instrument"))
    for (telescope = 0; telescope < 32; telescope++)
        accepted("", ok("telescope") ",\"telescope\":" telescope)
    accepted("", ok("night"))
    accepted("", ok("visibility"))
    accepted("\"balance\":10000,", ok("granted"))
    for (group = 1; group <= 32; group++) {
        submitted(group)
        comma = group == 1 ? "" : ","
        placements = placements comma "[" group "," group - 1 ",0]"
        prices = prices comma "0"
    }
    print "{\"caller\":0,\"line\":70,\"ok\":\"taken\",\"version\":69}"
    claim = "{\"bound\":1638400000,\"placements\":[" placements "],\"prices\":[" prices "],\"value\":1600000}"
    accepted("", "\"claim\":" claim "," ok("published"))
    submitted(33)
    print "{\"caller\":0,\"line\":72,\"ok\":\"taken\",\"version\":71}"
    print "{\"caller\":0,\"count\":1048577,\"line\":72,\"no\":38,\"refused\":\"TooManyStarts\",\"version\":71}"
}
