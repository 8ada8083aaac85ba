# The replies to a desk with 32 telescopes and 22 requests of one slice each. A request may start at each of the 1,440 slices of the
# horizon on each telescope, which makes 22 * 32 * 1,440 = 1,013,760 possible starts, and up to 1,048,576 are planned.
#
# A request is worth 10 * 1000 * 5 = 50,000. In the one round all prices are 0, so a telescope gives 50,000 at each slice, and the
# bound is 32 * 1,440 * 50,000 = 2,304,000,000. Each request in turn is placed at the earliest slice that is free on some telescope, on
# the lowest such one: that is slice 0 of the telescope after the one before. So the plan is worth 22 * 50,000 = 1,100,000. No plan is
# worth more than that, so no other takes its place.

function accepted(before, told) {
    printf "{%s\"caller\":0,%s,\"version\":%d}\n", before, told, version++
}

function ok(word) {
    return "\"line\":" ++line ",\"ok\":\"" word "\""
}

BEGIN {
    accepted("", ok("opened"))
    accepted("", ok("instrument"))
    for (telescope = 0; telescope < 32; telescope++)
        accepted("", ok("telescope") ",\"telescope\":" telescope)
    accepted("", ok("night"))
    accepted("", ok("visibility"))
    accepted("\"balance\":10000,", ok("granted"))
    for (group = 1; group <= 22; group++) {
        accepted("", "\"group\":" group ",\"ipp_charged\":0," ok("submitted") ",\"requests\":[" group "]")
        comma = group == 1 ? "" : ","
        placements = placements comma "[" group "," group - 1 ",0]"
        prices = prices comma "0"
    }
    print "{\"caller\":0,\"line\":60,\"ok\":\"taken\",\"version\":59}"
    printf "{\"caller\":0,\"claim\":{\"bound\":2304000000,\"placements\":[%s],\"prices\":[%s],\"value\":1100000},", placements, prices
    print "\"line\":60,\"ok\":\"published\",\"version\":59}"
}
