# Two lines that ask for a plan, with spaces behind: one of 1,048,576 bytes, as long as a line may be, and one that is a byte longer.
BEGIN {
    spaces = " "
    while (length(spaces) < 1048577) {
        spaces = spaces spaces
    }
    plan = "{\"do\":\"plan\"}"
    print plan substr(spaces, 1, 1048576 - length(plan))
    printf "%s%s", plan, substr(spaces, 1, 1048577 - length(plan))
}
