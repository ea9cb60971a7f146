# What look.awk knows of instructions, by the remarks in the table of crates/names/src/table.rt (ENVIRON["TABLE"]): there each opcode has its name and its
# operands. Where that table is not found in the form known here, `known` stays 0, and look.awk says nothing of lines of names.

# The table's two parts: `0x88 => 0x1766d696e2073, // vmin s`, then `0x88 => 0x41ccb, // [$vc[VCDST]] $v[DST] ..`.
function read_table(    text, part, op, count) {
    while ((getline text < ENVIRON["TABLE"]) > 0) {
        if (text ~ /^pub fn name_of\(/) part = "names"
        if (text ~ /^pub fn form_of\(/) part = "forms"
        if (text !~ /^ *0x[0-9a-f][0-9a-f] => 0x[0-9a-f]+, \/\/ ./) continue
        op = substr(text, index(text, "0x") + 2, 2)
        sub(/.*, \/\/ /, "", text)
        if (part == "names") {
            ops[++count] = op
            line_of[op] = text
            heads[op] = substr(text " ", 1, index(text " ", " ") - 1)
            named[heads[op]] = 1
        } else if (op in line_of) line_of[op] = line_of[op] " " text
    }
    close(ENVIRON["TABLE"])
    for (op in line_of) if (!good_form(line_of[op])) return
    known = count > 50 ? count : 0
}

# Whether each operand of a table's row is of a kind that `fits` knows; the first text is the name.
function good_form(form,    kind, n, i) {
    n = split(form, kind, " ")
    for (i = 2; i <= n; i++)
        if (kind[i] !~ /^([su]|\[\$v?c\[[A-Z]+\]\]|\$[arv]\[[A-Z0-9]+\]|\$vc|SWZLOHI|BITOP|CMPOP|BIMM|UIMM|IMM16|IMM)$/) return 0
    return 1
}

# Whether the text is an operand of the kind.
function fits(text, kind) {
    if (kind == "s" || kind == "u" || kind == "$vc") return text == kind
    if (kind == "SWZLOHI") return text == "lo" || text == "hi"
    if (kind == "BITOP" || kind == "CMPOP") return immediate(text, 15)
    if (kind == "BIMM") return immediate(text, 255)
    if (kind == "UIMM") return immediate(text, 2047)
    if (kind == "IMM16") return immediate(text, 65535)
    if (kind == "IMM") return immediate(text, 1023) || text ~ /^-0x[1-9a-f]/ && immediate(substr(text, 2), 1024)
    return register(text) == substr(kind, 2, index(kind, "[") - 2)
}

function immediate(text, most) { return text ~ /^0x(0|[1-9a-f][0-9a-f]*)$/ && length(text) < 7 && number(text) <= most }

# Whether the first n of the texts t are the row's line. A flags register, in brackets, may be left out.
function is_line(form, n,    kind, m, i, j) {
    m = split(form, kind, " ")
    for (i = j = 1; i <= m; i++) {
        if (i == 1 ? t[j] == kind[i] : j <= n && fits(t[j], unbracketed(kind[i]))) j++
        else if (kind[i] !~ /^\[/) return 0
    }
    return j == n + 1
}

function unbracketed(kind) { return kind ~ /^\[/ ? substr(kind, 2, length(kind) - 2) : kind }

# Whether the first n of the texts t are a line of names.
function is_named(n,    i) {
    for (i = 1; i <= known; i++) if (is_line(line_of[ops[i]], n)) return 1
    return 0
}

# What is expected of a name: a line for each opcode that has it, in the opcodes' order.
function as_in(head,    i, said) {
    for (i = 1; i <= known; i++) if (heads[ops[i]] == head) said = said (said == "" ? "" : " or: ") example(line_of[ops[i]])
    return "expected as in: " said
}

# A table's form as the line of the word whose other 24 bits are 0.
function example(form,    kind, n, i, said) {
    n = split(form, kind, " ")
    said = kind[1]
    for (i = 2; i <= n; i++) said = said " " zeros(unbracketed(kind[i]))
    return said
}

function zeros(kind) {
    if (kind ~ /^\$.*\[/) return substr(kind, 1, index(kind, "[") - 1) "0"
    if (kind == "SWZLOHI") return "lo"
    return kind ~ /^[A-Z]/ ? "0x0" : kind
}
