# The replies to 512 * 512 = 262,144 pieces of visibility, as many as a desk takes. One piece of another target is one too many. The first
# target may be seen in as many other pieces, 262,144 - 512 + 512, and in one less, which leaves room for that piece, and for no other.

function accepted(told) {
    printf "{\"caller\":0,\"line\":%d,%s,\"version\":%d}\n", ++line, told, version++
}

function refused() {
    printf "{\"caller\":0,\"limit\":262144,\"line\":%d,\"no\":16,\"refused\":\"Full\",\"version\":%d,\"what\":\"visibility\"}\n", ++line, version
}

BEGIN {
    accepted("\"ok\":\"opened\"")
    accepted("\"ok\":\"instrument\"")
    accepted("\"ok\":\"telescope\",\"telescope\":0")
    for (target = 1; target <= 512; target++)
        accepted("\"ok\":\"visibility\"")
    refused()
    accepted("\"ok\":\"visibility\"")
    accepted("\"ok\":\"visibility\"")
    accepted("\"ok\":\"visibility\"")
    refused()
}
