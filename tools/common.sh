# What the scripts share, in POSIX sh. A script that reads this file has set `me`, its name for what it says, and `root`, the project's folder; and
# `trouble` where its status for trouble is not 2.

# Says a sentence on standard error.
say() { printf '%s: %s\n' "$me" "$*" >&2; }

# Trouble: a sentence and its status.
die() {
    say "$*"
    exit "${trouble:-2}"
}

# Ends on Ctrl-C with a sentence, and with the status that shells give it.
trap 'say "ended by Ctrl-C"; exit 130' INT

# WORD: whether it is a number of up to 18 digits, which every program here can hold.
is_number() {
    case $1 in '' | *[!0-9]*) return 1 ;; esac
    [ "${#1}" -le 18 ]
}

# COMMAND WHY: ends where there is no such command.
needs() { command -v "$1" >/dev/null || die "no command \`$1\` on the PATH: $2"; }

# FOLDER: makes a folder that can be written.
make_folder() {
    mkdir -p "$1" 2>/dev/null && [ -w "$1" ] || die "the folder $1 cannot be made or written"
}

# The file of captured messages: CAPTURES, or that of the project.
find_captures() {
    captures=${CAPTURES:-$root/captures/messages.jsonl}
    [ -e "$captures" ] || die "CAPTURES: there is no file $captures"
    [ -f "$captures" ] || die "CAPTURES: $captures is no file"
    [ -r "$captures" ] || die "CAPTURES: $captures may not be read"
    CAPTURES=$(realpath -- "$captures")
    export CAPTURES
}

# Ends where standard output is closed: what is written to it would be lost, or go into some other file.
needs_output() { (: 9>&1) 2>/dev/null || die 'standard output is closed'; }

# Prints a line on standard output, or ends.
tell() { printf '%s\n' "$*" 2>/dev/null || die 'standard output could not be written'; }
