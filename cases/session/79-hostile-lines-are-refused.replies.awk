# What is replied to 79 lines of hostile bytes, before the desk is opened: each is refused, and then the desk opens as ever.

function refused(count, no, name, member) {
    for (; count > 0; count--)
        printf "{\"caller\":0,\"line\":%d,%s\"no\":%d,\"refused\":\"%s\",\"version\":0}\n", ++line, \
            member == "" ? "" : "\"member\":\"" member "\",", no, name
}

BEGIN {
    # Nothing but spaces (4), bytes that no JSON text begins with (5), texts that lack a part or go on after their end (11), other marks
    # than JSON has (2), and a byte 0 at the end.
    refused(23, 1, "NotJson")
    # Words that aren't JSON's (4); in a text a byte below 32, and bytes that aren't UTF-8: alone, longer than they need be, half of a
    # pair, above U+10FFFF, and in the name of a member that isn't read.
    refused(10, 1, "NotJson")
    # Escapes: either half of a pair alone, one that there isn't, one that is too short.
    refused(4, 1, "NotJson")
    # Numbers that JSON doesn't write so (7), or that no float is as great as (2), in a member that isn't read.
    refused(9, 1, "NotJson")
    # A comma before the end, a list that doesn't end, a comment; 128 levels, which are one too many, and lists and objects that never end.
    refused(6, 1, "NotJson")
    # JSON, but no objects: words, numbers, a text, lists.
    refused(8, 2, "NotObject")
    # No `do`: not there, null, two names that differ from it, and one that stands twice, of which the last counts.
    refused(5, 3, "Missing", "do")
    # A number, a word, a list and an object.
    refused(4, 4, "WrongKind", "do")
    # A text of 0 bytes, of 129, and of 65 letters that are 130.
    refused(3, 6, "OutOfRange", "do")
    # A text of 128 bytes, and others that are almost a word.
    refused(3, 33, "UnknownCommand")
    # These are read: with escapes; with spaces; twice, with 127 levels; with numbers of any size and a pair of halves.
    refused(4, 20, "NotOpened")
    printf "{\"caller\":0,\"line\":%d,\"ok\":\"opened\",\"version\":0}\n", ++line
    printf "{\"balances\":[],\"caller\":0,\"line\":%d,\"ok\":\"balances\",\"version\":1}\n", ++line
}
