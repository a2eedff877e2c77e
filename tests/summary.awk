# What `./test` did, in numbers: from what the gate, the C tests and the Rust tests printed, and `seconds`. A number that
# nothing printed is a failure and no 0, so that a line which reads otherwise one day does not go unseen.

/^rt: [a-z0-9_]+ proved$/ { crates++ }
# Of a crate that an earlier run proved the gate does not say how many functions it has.
/^rt: [a-z0-9_]+ is kept: / { crates++; kept++ }
/^logic=proved functions=[0-9]+ / { proofs++; functions += substr($2, length("functions=") + 1) }
/^rt: ok; .* must-fail edits: [0-9]+ refused[,;]/ {
    match($0, / must-fail edits: [0-9]+ /)
    edits = substr($0, RSTART + length(" must-fail edits: "), RLENGTH)
}
/^test result: ok\. [0-9]+ passed; / { tests += $4; ignored += $8 }
/^[a-z_]+: [0-9]+ calls/ { calls += $2 }
# The harness writes a dot for each test, so that what a test says need not stand at the start of its line.
/^\.*passed over: / { pass_over(substr($0, index($0, ": ") + 2)) }
/ [0-9]+ inputs tried, / {
    match($0, / [0-9]+ inputs tried, /)
    inputs += substr($0, RSTART + 1, RLENGTH)
}

END {
    if (ignored > 0) pass_over(ignored " Rust tests, since they are marked as ignored")
    if (kept > 0) {
        line("crates proved", crates ", of which " kept " by earlier runs on this machine")
    } else {
        number("crates proved", crates)
    }
    # Each crate that this run proved says how many functions it has.
    if (kept > 0 && proofs + 0 == crates - kept) {
        line("functions proved", functions + 0 " in this run")
    } else {
        number("functions proved", kept > 0 ? 0 : functions)
    }
    number("edits refused", edits)
    number("Rust tests passed", tests)
    number("inputs tried", inputs)
    number("calls from C", calls)
    line("passed over", parts == 0 ? "nothing" : parts ": " named)
    line("minutes", sprintf("%.1f", seconds / 60))
    exit missing
}

function pass_over(part) {
    named = named (parts++ == 0 ? "" : "; ") part
}

function number(what, count) {
    if (count + 0 > 0) {
        line(what, count + 0)
    } else {
        print "the summary finds no number: " what > "/dev/stderr"
        missing = 1
    }
}

function line(what, text) {
    printf "%-19s%s\n", what, text
}
