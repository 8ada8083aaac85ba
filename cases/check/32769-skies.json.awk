# A document with a sky of each of 32,769 targets at one site, which is one too many; all of them but the first are without a span.
BEGIN {
    printf "{\"claim\":{\"bound\":50000,\"placements\":[[1,0,0]],\"prices\":[50000],\"value\":50000},\"snapshot\":{\"first\":0,"
    printf "\"groups\":[{\"group\":1,\"operator\":\"SINGLE\",\"requests\":[{\"request\":1,\"seconds\":300,\"targets\":[0],\"telescopes\":[0],"
    printf "\"value\":50000,\"windows\":[[0,3600]]}]}],\"len\":300,\"skies\":[{\"site\":0,\"spans\":[[0,3600]],\"target\":0}"
    for (target = 1; target <= 32768; target++)
        printf ",{\"site\":0,\"spans\":[],\"target\":%d}", target
    printf "],\"slices\":12,\"telescopes\":[{\"site\":0,\"usable\":[[0,3600]]}],\"version\":7}}\n"
}
