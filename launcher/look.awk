# Looks at the form of a listing, of EXPECTED, of a step or of lines and words before a program is built for them, and says the first fault as the program itself would, in the
# words of docs/LISTING.md and docs/NAMES.md. Read after lines.awk, under LC_ALL=C. In the environment: LOOK, what it is (listing, expected, step, value, names, words),
# and AT, what is said before a fault ("run: FILE: "). Status 2 if there is a fault.

BEGIN {
    look = ENVIRON["LOOK"]
    read_table()
    expected_part["a"] = "expected a word, or addr, limit, stride and their values"
    expected_part["r"] = "expected a word"
    expected_part["c"] = "expected a word, or sign, zero, end and their values"
    expected_part["vc"] = "expected a word, or signs, zeros and their values"
    for (i = split("a addr a limit a stride c sign c zero c end vc signs vc zeros", i_part, " "); i > 1; i -= 2) is_part[i_part[i - 1], i_part[i]] = 1
    up_to["addr"] = up_to["signs"] = up_to["zeros"] = "0xffff"
    up_to["limit"] = "0x3fff"
}

# The texts of the line are t[1] to t[n], and `whole` is all of it.
{
    sub(/[#;].*/, "")
    gsub(/[ \t\r]+/, " ")
    sub(/^ /, "")
    sub(/ $/, "")
    whole = $0
    n = split(whole, t, "[ ]")
    if (look == "step" || look == "value") exit # only the first line is read
    if (n == 0) next
    if (look == "names") for (i = 1; i <= n; i++) word(i)
    else if (look == "words") named_line()
    else if (look == "listing") listing_line()
    else expected_line()
}

END {
    if (told) exit 2
    if (look == "step") step()
    if (look == "value") held("a", 1)
    if (look == "listing" && !steps && !dots) say("expected a step or a dot line")
    if (look == "expected" && !compared) say("expected a line to compare")
    if (told) exit 2
}

# ---- Faults

function say(text) {
    print ENVIRON["AT"] text
    told = 1
    exit 2
}

# The text is at fault.
function fault(text, expected,    shown) {
    shown = substr(text, 1, 64)
    gsub(/[^ -~]/, "?", shown)
    if (length(text) > 64) shown = shown ".."
    say((look == "step" || look == "value" ? "" : "line " NR ": ") shown ": " expected)
}

# Text i of the line is at fault, or the whole line where there is none.
function fault_at(i, expected) { fault(i > n ? whole : t[i], expected) }

function end_at(i) { if (i <= n) fault(t[i], "expected the end of the line") }

# ---- Numbers and registers

function is_hex(digits) { return digits ~ /^[0-9a-fA-F]+$/ }

# What a number says, or -1 where the text is none.
function number(text,    digits, i, sum) {
    if (text ~ /^0x/) {
        digits = tolower(substr(text, 3))
        if (!is_hex(digits) || length(digits) > 8) return -1
        for (i = 1; i <= length(digits); i++) sum = sum * 16 + index("0123456789abcdef", substr(digits, i, 1)) - 1
        return sum
    }
    return text ~ /^[0-9]+$/ && length(text) <= 10 && text + 0 < 4294967296 ? text + 0 : -1
}

function is_below(text, bound,    sum) {
    sum = number(text)
    return sum >= 0 && sum < bound
}

# Whether the text is so many hexadecimal digits, with or without 0x.
function has_digits(text, count) {
    sub(/^0x/, "", text)
    return length(text) == count && is_hex(text)
}

# The letters of a register's name, or "" where the text is none.
function register(text) {
    if (text ~ /^\$[arv]([0-9]|[12][0-9]|3[01])$/) return substr(text, 2, 1)
    if (text ~ /^\$v?c[0-3]$/) return substr(text, 2, length(text) - 2)
    return ""
}

# ---- Pieces of lines, from text i on. Each ends here if it finds a fault.

function stride(i,    sum) {
    sum = i > n ? -1 : number(t[i])
    if (sum != 16 && sum != 32 && sum != 64 && sum != 128) fault_at(i, "expected a stride: 0x10, 0x20, 0x40 or 0x80")
}

function address(i) { if (i > n || !is_below(t[i], 8192)) fault_at(i, "expected an address: a number up to 0x1fff") }

function byte(i) { if (i > n || !has_digits(t[i], 2)) fault_at(i, "expected a byte: two hexadecimal digits") }

function literal(i, text, expected) { if (i > n || t[i] != text) fault_at(i, expected) }

function a_number(i, bound, expected) { if (i > n || !is_below(t[i], bound)) fault_at(i, expected) }

# Sixteen bytes, or one for all.
function sixteen(i,    all, count) {
    all = i <= n && t[i] == "all"
    for (i += all; i <= n; i++) {
        byte(i)
        count++
    }
    if (count != 1 && (all || count != 16)) fault(whole, "expected 16 bytes, or one for all")
}

# The value of a register of this kind: bytes, a word, or parts and their values.
function held(kind, i) {
    if (kind == "v") sixteen(i)
    else if (i <= n && number(t[i]) >= 0) end_at(i + 1)
    else do {
        if (i > n || !((kind, t[i]) in is_part)) fault_at(i, expected_part[kind])
        if (t[i] == "stride") stride(i + 1)
        else if (t[i] in up_to) a_number(i + 1, number(up_to[t[i]]) + 1, "expected a number up to " up_to[t[i]])
        else a_number(i + 1, 2, "expected 0 or 1")
        i += 2
    } while (i <= n)
}

function row(i) {
    address(i)
    literal(i + 1, "stride", "expected as in: row 0x40 stride 0x20")
    stride(i + 2)
}

# ---- Lines of a listing

function listing_line() {
    if (t[1] !~ /^\./) step()
    else if (t[1] == ".show") show()
    else start("expected .set, .bytes, .fill, .show or .budget", steps, "expected before the first step")
    if (t[1] ~ /^\./) dots++
    else if (++steps > 1024) fault(whole, "expected at most 1024 steps")
}

# A dot line that sets the start; `late` where it stands too far down.
function start(known_ones, late, expected) {
    if (t[1] !~ /^\.(set|bytes|fill|budget)$/) fault(t[1], known_ones)
    if (late) fault(t[1], expected)
    if (t[1] == ".set") set()
    else if (t[1] == ".bytes") bytes()
    else if (t[1] == ".fill") fill()
    else {
        a_number(2, 4294967296, "expected a number")
        end_at(3)
    }
}

function set() {
    if (n < 2 || register(t[2]) == "") fault_at(2, "expected a register: $a0 to $a31, $r0 to $r31, $v0 to $v31, $c0 to $c3 or $vc0 to $vc3")
    held(register(t[2]), 3)
}

function bytes(    i, form) {
    form = "expected as in: .bytes stride 0x20 at 0x100 00 01 02"
    literal(2, "stride", form)
    stride(3)
    literal(4, "at", form)
    address(5)
    byte(6)
    for (i = 6; i <= n; i++) {
        byte(i)
        if (number(t[5]) + i - 6 > 8191) fault(t[i], "expected no byte beyond address 0x1fff")
    }
}

function fill() {
    if (n > 1 && t[2] == "address") {
        literal(3, "stride", "expected as in: .fill address stride 0x40")
        stride(4)
        end_at(5)
    } else if (n > 1 && (t[2] == "bank" || has_digits(t[2], 2))) end_at(3)
    else fault_at(2, "expected bank, address or a byte")
}

function show() {
    if (n > 1 && register(t[2]) != "") end_at(3)
    else if (n > 1 && (t[2] == "row" || t[2] == "column")) {
        row(3)
        end_at(6)
    } else if (n > 1 && t[2] == "bank") {
        a_number(3, 16, "expected a bank: 0 to 15")
        if (n > 3 && t[4] == "cell") {
            a_number(5, 249, "expected a cell: 0 to 248")
            end_at(6)
        } else end_at(4)
    } else fault_at(2, "expected a register, row, column or bank")
    if (++shows > 64) fault(whole, "expected at most 64 .show lines")
}

# A step: a word or a line of names, and its side inputs.
function step(    at, before) {
    for (at = 1; at <= n && t[at] != "@"; at++) before = before (at > 1 ? " " : "") t[at]
    if (!(at == 2 && has_digits(t[1], 8)) && (known || at == 1)) {
        if (at == 1 || !(t[1] in named)) fault(at == 1 ? whole : before, "expected the name of an instruction, or a word of eight hexadecimal digits")
        if (!is_named(at - 1)) fault(before, as_in(t[1]))
    }
    if (at > n) return
    a_number(at + 1, 4294967296, "expected a side index: a number")
    if (n > at + 1) a_number(at + 2, 4294967296, "expected a side mask word: a number")
    end_at(at + 3)
}

# ---- Lines of EXPECTED

function expected_line() {
    if (t[1] ~ /^\./) {
        start("expected .set, .bytes, .fill or .budget", compared, "expected before the first line to compare")
        return
    }
    if (register(t[1]) != "") held(register(t[1]), 2)
    else if (t[1] == "row" || t[1] == "column") {
        row(2)
        sixteen(5)
    } else if (t[1] == "bank") {
        a_number(2, 16, "expected a bank: 0 to 15")
        literal(3, "cell", "expected as in: bank 3 cell 16")
        a_number(4, 249, "expected a cell: 0 to 248")
        sixteen(5)
    } else if (t[1] == "answer" || t[1] == "steps" || t[1] == "cells" || t[1] == "clipped") {
        a_number(2, 4294967296, "expected a number")
        end_at(3)
    } else if (t[1] == "banks") banks()
    else fault(t[1], "expected a register, row, column, bank, answer, steps, cells, clipped, banks or a dot line")
    compared++
}

function banks(    i) {
    for (i = 2; i <= n; i++) a_number(i, 4294967296, "expected a number")
    if (n != 17) fault(whole, "expected 16 numbers")
}

# ---- Lines of the commands names and words

function word(i,    text, op) {
    text = t[i]
    sub(/^0x/, "", text)
    if (!is_hex(text) || length(text) > 8) fault(t[i], "expected 1 to 8 hexadecimal digits, with or without 0x")
    op = tolower(substr("00000000" text, length(text) + 1, 2))
    if (op !~ /^[89a-d]/) fault(t[i], "refused, 1 (expected an opcode from 0x80 to 0xdf)")
    if (known && !(op in line_of)) fault(t[i], "refused, 2 (expected an opcode that is documented)")
}

function named_line() {
    if (!known) return
    if (!(t[1] in named)) fault(whole, "refused, 8 (expected the name of an instruction)")
    if (!is_named(n)) fault(whole, "refused, 9 (" as_in(t[1]) ")")
}
