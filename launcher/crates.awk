# Reads crates.txt and prints the lines of the crates that the program ENVIRON["WANTED"] stands on, and its own, as NAME: DEP DEP .., in the order in which rt
# proves them: each after those that it needs, in the order in which these are named.

function visit(name,    dep, k, n) {
    if (!(name in deps) || (name in seen)) return
    seen[name] = 1
    n = split(deps[name], dep, " ")
    for (k = 1; k <= n; k++) visit(dep[k])
    print name ":" deps[name]
}

{ sub(/#.*/, "") }

/:/ {
    name = substr($0, 1, index($0, ":") - 1)
    sub(/ staticlib *$/, "", name)
    gsub(/[ \t]/, "", name)
    deps[name] = substr($0, index($0, ":") + 1)
}

END { visit(ENVIRON["WANTED"]) }
