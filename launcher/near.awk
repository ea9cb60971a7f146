# Reads words, one to a line, and prints the one that is nearest to ENVIRON["WORD"]: at most two letters (of a word of three, one) put in, taken out or changed, or
# neighbours exchanged.

function least(a, b) { return a < b ? a : b }

function distance(a, b,    i, j, d, same) {
    for (i = 0; i <= length(a); i++) d[i, 0] = i
    for (j = 0; j <= length(b); j++) d[0, j] = j
    for (i = 1; i <= length(a); i++)
        for (j = 1; j <= length(b); j++) {
            same = substr(a, i, 1) == substr(b, j, 1)
            d[i, j] = least(d[i - 1, j - 1] + !same, least(d[i - 1, j], d[i, j - 1]) + 1)
            if (i > 1 && j > 1 && substr(a, i, 1) == substr(b, j - 1, 1) && substr(a, i - 1, 1) == substr(b, j, 1)) d[i, j] = least(d[i, j], d[i - 2, j - 2] + 1)
        }
    return d[length(a), length(b)]
}

BEGIN { best = length(ENVIRON["WORD"]) < 4 ? 2 : 3 }

{
    far = distance(ENVIRON["WORD"], $0)
    if (far < best) {
        best = far
        nearest = $0
    }
}

END { print nearest }
