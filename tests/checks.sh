# What the tests share, in bash: a check, what is left out, the count of both, and copies to try things on.

work=$root/target/tests
passed=0 failed=0 left_out=0
# No command of a test takes as long.
most_seconds=900

ok() { passed=$((passed + 1)) && tell "ok: $1"; }

# WHAT WHY: why a check fails.
fails() {
  failed=$((failed + 1))
  tell "FAILS: $1: $2"
}

# WHAT WHY: a check that cannot be made here.
leave_out() {
  left_out=$((left_out + 1))
  tell "left out: $1: $2"
}

# Runs a command with nothing to read and keeps its status, its output and what it said.
# COMMAND..
got() {
  status=0
  timeout "$most_seconds" "$@" </dev/null >"$work/out" 2>"$work/err" || status=$?
  out=$(tr -d '\0' <"$work/out" && echo .) err=$(tr -d '\0' <"$work/err" && echo .)
  out=${out%.} err=${err%.}
}

# The same of a line for bash, which can lead descriptors elsewhere.
got_line() { got bash -c "$1"; }

# WHAT STATUS OUT ERR: holds what was got to what is wanted. OUT and ERR are patterns, in which * is any text; each is whole lines.
wants() {
  local what=$1 want_status=$2 want_out=${3:+$3$'\n'} want_err=${4:+$4$'\n'}
  # shellcheck disable=SC2053
  if [ "$status" -ne "$want_status" ]; then
    fails "$what" "status $status, and $want_status is wanted; it said: ${err:-nothing}"
  elif [[ $out != $want_out ]]; then
    fails "$what" "printed '${out:0:2000}', and '$want_out' is wanted"
  elif [[ $err != $want_err ]]; then
    fails "$what" "said '${err:0:2000}', and '$want_err' is wanted"
  else
    ok "$what"
  fi
}

# WHAT STATUS OUT ERR COMMAND..: runs a command and holds it to what is wanted. The second takes a line for bash.
try() {
  got "${@:5}"
  wants "${@:1:4}"
}
try_line() {
  got_line "$5"
  wants "${@:1:4}"
}

# FILE..: a copy of parts of the project, in `copy`, a folder that is new each time.
copies=0
make_copy() {
  copies=$((copies + 1)) copy=$work/copy$copies
  mkdir -p "$copy"
  local file
  for file; do
    mkdir -p "$copy/$(dirname "$file")"
    cp -R "$root/$file" "$copy/$file"
  done
}

# WHAT FILE EDIT ERR: the script `check` of .ci refuses the copy with an edit of a file, as sed makes it, with a sentence.
refused() {
  sed -i -E "$3" "$copy/$2"
  if cmp -s "$2" "$copy/$2"; then
    fails "$check: $1" "the edit of $2 changes nothing"
  else
    try "$check: $1" 1 '' "$4" "$copy/.ci/$check"
  fi
  cp "$2" "$copy/$2"
}

# A folder of links to the commands of the system: a PATH without the kit and without cargo. COMMAND..
system_commands=(awk basename bash cat chmod cmp cp cut date dirname env expr find grep head id ls mkdir mktemp mv nproc python3 readlink realpath
  rm sed sh sleep sort tail tee timeout touch tr true uname wc)
make_path() {
  path=$work/path$((copies += 1))
  mkdir -p "$path"
  local name
  for name; do
    ln -s "$(command -v "$name")" "$path/$name" || die "no command $name, which the tests need"
  done
}

# Prints the count of all checks, and ends.
finish() {
  [ "$left_out" -eq 0 ] && left_out='' || left_out=", $left_out left out"
  tell "$passed passed, $failed failed$left_out"
  [ "$failed" -eq 0 ]
  exit
}
