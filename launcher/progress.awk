# Reads what rt has said so far, and prints how many of the crates ENVIRON["CRATES"], which stand there in rt's order, are proved, and which is next. Of a crate that was
# proved earlier nothing is said: those before one that is proved now are proved too.

BEGIN {
    total = split(ENVIRON["CRATES"], crate, " ")
    for (k = 1; k <= total; k++) place[crate[k]] = k
}

/^rt: [a-z0-9_]+ proved$/ && $2 in place && place[$2] > proved { proved = place[$2] }

END { print proved + 0 " of " total " crates proved" (proved < total ? ", now at " crate[proved + 1] : "") }
