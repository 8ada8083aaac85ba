# A document with a sky of each of 513 targets at one site: 512 of 512 spans, and one of one span, so that there are
# 512 * 512 + 1 = 262,145 spans, which is one too many.
BEGIN {
    printf "{\"claim\":{\"bound\":50000,\"placements\":[[1,0,0]],\"prices\":[50000],\"value\":50000},\"snapshot\":{\"first\":0,"
    printf "\"groups\":[{\"group\":1,\"operator\":\"SINGLE\",\"requests\":[{\"request\":1,\"seconds\":300,\"targets\":[512],\"telescopes\":[0],"
    printf "\"value\":50000,\"windows\":[[0,3600]]}]}],\"len\":300,\"skies\":["
    for (from = 0; from < 1024; from += 2)
        spans = spans (from == 0 ? "" : ",") "[" from "," from + 1 "]"
    for (target = 0; target < 512; target++)
        printf "{\"site\":0,\"spans\":[%s],\"target\":%d},", spans, target
    printf "{\"site\":0,\"spans\":[[0,3600]],\"target\":512}"
    printf "],\"slices\":12,\"telescopes\":[{\"site\":0,\"usable\":[[0,3600]]}],\"version\":7}}\n"
}
