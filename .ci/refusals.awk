# What a log of the prover says of each wrong answer of an edit. `.ci/refusals` and `.ci/alone` read it:
#
#     awk -f .ci/refusals.awk -v crate=CRATE EDIT LOG
#
# LOG is what `rt check` says in the folder of the crate with the edit. A line 'LABEL<tab>WHAT<tab>WHY' for each wrong answer, where WHAT is
#     refused      at a fact of its own place
#     untouched    nothing of its own was refused; that it cites or calls what was refused elsewhere is none
#     spoilt       for a name that its proof no longer finds, so that the code has another shape, or with no verdict: nothing is shown
# A line of an edit that cannot be held to anything is spoilt too.

# What an error says, without the words in backquotes that it says it of: `cited`, `name`, `limit` or `fact`.
function kind(said) {
    gsub(/`[^`]*`/, "`", said)
    if (said ~ /^[0-9]+ declarations? that depends? on ` ?, which was (not admitted|rejected)/) return "cited"
    while (sub(/^`: /, "", said)) { }
    if (said ~ /^((a|the|this) )?((module|record|type|data|file) )*`? ?(is not in scope|has no `|has no field|exports no|is no name|cannot be named)/) return "name"
    if (said ~ /unknown-name|operand is missing|expected the end|cannot continue|explicit arguments? more than/) return "name"
    if (said ~ /ran out of|outgrew the memory|step limit/) return "limit"
    return "fact"
}

# What is in backquotes of a text, in order, into the array.
function quoted(text, into,    n) {
    split("", into)
    while (match(text, /`[^`]*`/)) {
        into[++n] = substr(text, RSTART + 1, RLENGTH - 2)
        text = substr(text, RSTART + RLENGTH)
    }
    return n
}

# The goals that an edit may name anew are named after a test, as `returns-then-x-lt8`: these go by the first word. No edit renames `returns`.
function family(goal) {
    return index(goal, "-") ? substr(goal, 1, index(goal, "-") - 1) : goal == "" ? "any" : "none"
}

# Notes what was refused in the function or the file of a wrong answer, for whoever named another place.
function refuse(i, name) {
    if (name != "" && !((i, name) in noted)) besides[i] = besides[i] (besides[i] == "" ? "" : ", ") name
    noted[i, name] = 1
}

# The wrong answers of the edit.
FNR == NR {
    if ($0 !~ /^wrong: /) next
    n++
    at = index($0, ", in ")
    if (!at) { label[n] = substr($0, 8); bad[n] = "not of the form wrong: LABEL, in FUNCTION"; next }
    label[n] = substr($0, 8, at - 8)
    place[n] = substr($0, at + 5)
    if (place[n] in taken) bad[n] = "another of this file has the same place"
    taken[place[n]] = 1
    if (place[n] ~ /^the theorem [^ ]+ of proofs\/[^ ]+\.antt$/) {
        split(place[n], word, " ")
        fact[n] = word[3]
        path[n] = "^" word[5] "$"
        next
    }
    of = place[n]
    if (at = index(of, " at ")) { fact[n] = substr(of, at + 4); of = substr(of, 1, at - 1) }
    if ((of in without) || (of in among && !(n in fact))) bad[n] = "another of this file is in the same function, and one of the two names no fact"
    among[of] = 1
    if (!(n in fact)) without[of] = 1
    # A function of a module, or of a type of a module: modules are in small letters.
    path[n] = of
    gsub(/::/, "/", path[n])
    path[n] = "^proofs/([+a-z0-9_]+/)*" path[n] "/(Answers|Invariants|Proof)\\.antt$"
    line[n] = "^" crate "::([a-z0-9_]+::)*" of "$"
    next
}

# The answers of a function go by the names that the edit gave its goals, and so do the facts that are named here.
/^in [^ ]+, [^ ]+ is now [^ ]+$/ {
    in_file = "proofs/" substr($2, 1, length($2) - 1) "/Answers.antt"
    for (i = 1; i <= n; i++)
        if ((i in line) && (i in fact) && in_file ~ path[i] && (at = index(fact[i] "-", "-" $3 "-")))
            fact[i] = substr(fact[i], 1, at) $6 substr(fact[i], at + 1 + length($3))
    next
}

/^not applied: / { refusal = $0; next }
/^[^ ]+: error\[[a-z0-9-]+\]/ { if (!refusal) refusal = "it does not compile: " $0; next }
/^logic=/ { verdict = 1; next }

# An error in a file of proofs/, of a declaration where it names one first.
/^(\.\/)?proofs\/[^ :]+(:[0-9]+)*: error: / {
    in_file = $1
    sub(/^\.\//, "", in_file)
    sub(/(:[0-9]+)*:$/, "", in_file)
    said = substr($0, index($0, ": error: ") + 9)
    in_name = ""
    if (match(said, /^`[^`]*`: /)) {
        in_name = substr(said, 2, RLENGTH - 4)
        said = substr(said, RLENGTH + 1)
    }
    what = kind(said)
    for (i = 1; i <= n; i++)
        if ((i in path) && in_file ~ path[i]) {
            # Without its answer a goal of a function stays open, and that shows nothing.
            if (what == "fact") refuse(i, in_name)
            if (what == "name" && ((i in line) || in_name == fact[i])) {
                lost[i] = said
                gone[i, family(in_name)] = 1
            }
            else if (!(i in fact) || in_name == fact[i]) seen[i, what] = 1
            else if (what == "cited") seen[i, what] = 1
        }
    next
}

# A goal that is not proved: of the function whose line comes next.
/^note: [^ ]+: it is not proved that / {
    said = $0
    goals = ""
    while (match(said, /\(`[^)]*`\)/)) {
        goals = substr(said, RSTART, RLENGTH)
        said = substr(said, RSTART + RLENGTH)
    }
    for (k = quoted(goals, goal); k > 0; k--) {
        open[goal[k]] = 1
        if ($0 ~ /allow values at which this goal is false/) untrue[goal[k]] = 1
    }
    next
}

# What became of a function.
/^fn [^ ]*: / {
    name = $2
    sub(/:$/, "", name)
    said = substr($0, length(name) + 6)
    if (said ~ /`search` did not prove `/) {
        goals = said
        sub(/^.*`search` did not prove /, "", goals)
        sub(/; .*$/, "", goals)
        for (k = quoted(goals, goal); k > 0; k--) open[goal[k]] = 1
    }
    for (i = 1; i <= n; i++)
        if ((i in line) && name ~ line[i]) {
            found[i]++
            outcome[i] = said
            for (it in open) refuse(i, it)
            for (it in open)
                if (!(i in fact) || it == fact[i]) {
                    left[i, family(it)] = 1
                    if (it in untrue) seen[i, "fact"] = 1
                }
        }
    split("", open)
    split("", untrue)
}

END {
    for (it in left) {
        split(it, word, SUBSEP)
        if (!((word[1], "any") in gone) && !(it in gone && word[2] != "none")) seen[word[1], "fact"] = 1
    }
    for (i = 1; i <= n; i++) {
        what = "untouched"
        why = ""
        if (i in bad) { what = "spoilt"; why = bad[i] }
        else if (refusal) { what = "spoilt"; why = substr(refusal, 1, 200) }
        else if (!verdict) { what = "spoilt"; why = "its check ended with no verdict" }
        else if ((i in line) && found[i] != 1) { what = "spoilt"; why = "the log has " (found[i] ? "more than one" : "no") " such function" }
        else if (seen[i, "fact"]) what = "refused"
        else if (i in lost) { what = "spoilt"; why = "refused for a name and not for the fact: " substr(lost[i], 1, 160) }
        else if (seen[i, "limit"]) why = "refused by a limit of the prover alone"
        else if (seen[i, "cited"]) why = "refused for what it cites alone"
        else why = "no refusal of its own" (outcome[i] == "" ? "" : ": " substr(outcome[i], 1, 160))
        if (what != "refused" && (i in besides)) why = why "; what is refused there: " substr(besides[i], 1, 200)
        print label[i] "\t" what "\t" ((i in place) ? "in " place[i] ": " : "") why
    }
}
