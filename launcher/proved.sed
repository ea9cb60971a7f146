# Passes on what rt says while it proves crates, one after the other, with a line behind each crate's verdict: `rt: NAME proved` or `rt: NAME NOT PROVED`.
/^crate [a-z0-9_]*: /h
/^logic=/ {
    G
    s/^\(logic=proved[^\n]*\)\ncrate \([a-z0-9_]*\):.*/\1\nrt: \2 proved/
    s/^\(logic=[^\n]*\)\ncrate \([a-z0-9_]*\):.*/\1\nrt: \2 NOT PROVED/
    s/\n$//
    x
    s/.*//
    x
}
