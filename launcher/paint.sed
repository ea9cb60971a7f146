# The colours of what the program desk writes, on a terminal. <32> stands for the escape of that number: 0 none, 1 bold, 31 red, 32 green, 33 yellow, 36 cyan.
# Escapes are put in, and nothing else changes.

# A listing's name, and what check has found.
s/^== .*/<1>&<0>/
s/: \(as expected, [0-9]* compared\)$/: <32>\1<0>/
s/: \([0-9]* of [0-9]* differ\)$/: <31>\1<0>/
s/^\(line [0-9]*: \)\(expected\) /\1<33>\2<0> /
s/^\(line [0-9]*: \)\(found\) /\1<31>\2<0> /

# A step's answer, and that of the step with the next.
s/\(: \)\(done\)\(, [0-9]* cell\)/\1<32>\2<0>\3/
s/\(; with the next: \)\(free\)$/\1<32>\2<0>/
s/\(; with the next: \)\(clash\) /\1<33>\2<0> /
s/\(refused\), \([0-9] (\)/<31>\1<0>, \2/g

# What a step changed, and the answer at the end.
s/^\(  .* -> \)\(.*\)/\1<1>\2<0>/
s/^\(answer 0 # \)\(.*\)/\1<32>\2<0>/
s/^\(answer [1-9] # \)\(.*\)/\1<31>\2<0>/

# Registers.
s/\$[a-z]\{1,2\}[0-9]\{1,2\}/<36>&<0>/g
