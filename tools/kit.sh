# The Rattle kit, in POSIX sh, beside common.sh: where it stands, what runs a program for x86-64, how far its proofs are.

# Finds the kit by `rt` on the PATH: sets kit and tools. Fails where there is no kit.
find_kit() {
    rt=$(command -v rt) || return 1
    kit=$(dirname -- "$(dirname -- "$(readlink -f -- "$rt")")")
    tools=$kit/toolchain
}

# Finds what a program for x86-64 runs with: the kit's loader and C library, with no kit the system's; on other processors an emulator too.
# Sets loader and emulator, each empty where there is none to name. Fails with `why`.
find_runner() {
    loader='' emulator='' machine=$(uname -m)
    if find_kit; then
        loader=$tools/lib/ld-linux-x86-64.so.2 emulator=$tools/bin/qemu-x86_64
        [ -x "$emulator" ] || emulator=''
        why="the Rattle kit at $kit has nothing to run a program with on this machine, $machine: no $loader"
        [ -f "$loader" ]
        return
    fi
    if [ "$machine" != x86_64 ] && ! emulator=$(command -v qemu-x86_64); then
        why="the program is for x86-64 and this machine is $machine: it needs an emulator, that of the Rattle kit (no command \`rt\` on the PATH) or qemu-x86_64 (not there either)"
        return 1
    fi
    why='the program needs the C library of x86-64 Linux, and there is no /lib64/ld-linux-x86-64.so.2; the Rattle kit (no command `rt` on the PATH) has one too'
    [ -e /lib64/ld-linux-x86-64.so.2 ]
}

# PROGRAM ARGUMENT..: after find_runner, a program for x86-64 in place of this shell.
become_x86() {
    [ -z "$loader" ] || set -- "$loader" --library-path "$tools/lib" "$@"
    [ -z "$emulator" ] || set -- "$emulator" "$@"
    exec "$@"
}

# NAME: the crates of the repository that NAME is built from, itself the last, one to a line.
crates_of() {
    awk -v name="$1" '
        function visit(crate,    parts, count, i) {
            if (seen[crate]++) return
            count = split(needs[crate], parts, " ")
            for (i = 1; i <= count; i++) if (parts[i] in needs) visit(parts[i])
            print crate
        }
        { sub(/#.*/, "") }
        split($0, half, ":") == 2 { split(half[1], words, " "); needs[words[1]] = half[2] }
        END { visit(name) }' "$root/crates.txt"
}

# LOG NAME COMMAND..: runs a command of rt that proves NAME, in its folder, says how far it is, crate by crate, and shows all that it said where it
# fails. What was proved before is not told again.
prove() {
    log=$1 wanted=$2 all=$(crates_of "$2" | wc -l)
    shift 2
    (: >"$log") 2>/dev/null || die "$log cannot be written"
    {
        status=0
        (cd "$root/crates/$wanted" && "$@") </dev/null 2>&1 || status=$?
        echo "=ended $status"
    } | {
        ended=2 proved=0 name=''
        while IFS= read -r line; do
            case $line in
            '=ended '*) ended=${line#=ended } && break ;;
            'crate '*': modules '*) name=${line#crate } && name=${name%%:*} ;;
            'logic=proved '*)
                proved=$((proved + 1))
                [ "$name" != "$wanted" ] || proved=$((all))
                say "proved $name, $proved of $((all))"
                ;;
            esac
            printf '%s\n' "$line" >>"$log"
        done
        [ "$ended" -eq 0 ] || { cat "$log" >&2 && false; }
    }
}
