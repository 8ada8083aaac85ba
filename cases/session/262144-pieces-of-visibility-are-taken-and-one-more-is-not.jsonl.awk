# A desk with one site, and what can be seen of 512 targets from there, in 512 spans each: that is 512 * 512 = 262,144 pieces. Then come
# a 513th target, a first one that is seen in as many other spans, and in one span less; and the 513th and a 514th.

function visibility(target, spans) {
    printf "{\"do\":\"visibility\",\"target\":\"T%d\",\"site\":\"coj\",\"spans\":[%s]}\n", target, spans
}

# So many spans of one second, from this one on, with a second between them.
function seconds(count, from,    spans) {
    for (; count > 0; count--) {
        spans = spans (spans == "" ? "" : ",") "[" from "," from + 1 "]"
        from += 2
    }
    return spans
}

BEGIN {
    print "{\"do\":\"open\",\"now\":0,\"slice\":300,\"horizon\":12,\"semester\":[0,15552000],\"lanes\":1,\"rounds\":8,\"workers\":1}"
    print "{\"do\":\"instrument\",\"type\":\"A\",\"front_ms\":0,\"config_ms\":0,\"readout_ms\":0,\"change_ms\":0}"
    print "{\"do\":\"telescope\",\"site\":\"coj\",\"enclosure\":\"doma\",\"telescope\":\"1m0a\",\"class\":\"1m0\",\"instruments\":[\"A\"]}"
    most = seconds(512, 0)
    for (target = 1; target <= 512; target++)
        visibility(target, most)
    visibility(513, seconds(1, 0))
    visibility(1, seconds(512, 1))
    visibility(1, seconds(511, 0))
    visibility(513, seconds(1, 0))
    visibility(514, seconds(1, 0))
}
