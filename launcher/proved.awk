# Reads what launcher/prove said, and keeps what was said of each crate, up to its verdict, in the file ENVIRON["LOGS"]/NAME.out.

{ said[++lines] = $0 }

/^rt: [a-z0-9_]+ (proved|NOT PROVED)$/ {
    file = ENVIRON["LOGS"] "/" $2 ".out"
    printf "" >file
    for (k = 1; k <= lines; k++) print said[k] >>file
    close(file)
    lines = 0
}
