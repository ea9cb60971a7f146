# Reads what launcher/prove said, and prints the first error and up to four lines below it; where there is none, the last five lines. Each line is cut to 300 bytes.

/: error[:[]/ { errors++ }
errors && /^(rt:|fn|logic|library|crate) / { errors = 2 } # the message is over
errors == 1 && shown++ < 5 { print cut($0) }
!errors { last[NR % 5] = $0 }

END {
    if (!errors) for (k = NR < 5 ? 1 : NR - 4; k <= NR; k++) print cut(last[k % 5])
}

function cut(text) {
    if (length(text) <= 300) return text
    text = substr(text, 1, 300)
    sub(/[\300-\377][\200-\277]*$/, "", text) # half a character
    return text ".."
}
