# Prints what the Makefile offers: awk -f tools/help.awk Makefile; with -v names=1 only the targets' names
# It reads three kinds of lines: '### GROUP', 'TARGET: .. ## TEXT', and '#- VARIABLE=VALUE TEXT' for a variable of the target above;
# in a file that is included, too, at the place where it is.
# Words such as VARIABLE=VALUE at the start of a target's TEXT belong to the command, which is nothing without them.

# A row: the command, with the variables at the start of the text, and the rest of the text.
function row(command, text) {
    while (match(text, /^[A-Z]+=[^ ]+ +/)) {
        command = command " " substr(text, 1, index(text, " ") - 1)
        text = substr(text, RLENGTH + 1)
    }
    printf "%-26s %s\n", command, text
}

function read(line, target) {
    if (line ~ /^[a-z][a-z0-9_]*:.* ## /) {
        target = substr(line, 1, index(line, ":") - 1)
        if (names)
            print target
        else
            row("  make " target, substr(line, index(line, " ## ") + 4))
    } else if (!names && line ~ /^### /) {
        print separator substr(line, 5)
        separator = "\n"
    } else if (!names && line ~ /^#- /)
        row("     ", substr(line, 4))
}

/^include / { while ((getline line < $2) > 0) read(line) }
{ read($0) }

END { if (!names) print "\nA step prints one line, with its time in seconds; what it says besides is in build/log." }
