# Functions for ./features, ./rows and ./feats. Each sets `top`, the repository's folder, and calls `launch`, or ./feats `launch_feats`.
#
# These run the program that ./build proved and built. If there is none, or a source file is newer than it, they run the same
# program without proofs, with checks at run time in their place: ./unproved makes it at the first call and keeps it. If it can't, they
# run `rt try`. Output, faults and exit status are the same.

# The exit status if the program can't be run to its end: `rt` is missing, a check at run time failed, or a limit of `rt try` is met.
NO_ANSWER=70
# The exit status of a program that ends by SIGILL, as a failed check at run time does.
FAILED_CHECK=132

# Prints a crate of the repository and those on which it depends.
crates_of() {
  awk -v name="$1" '
    /^#/ { next }
    { sub(":", "", $1); below[$1] = ""; for (k = 2; k <= NF; k++) below[$1] = below[$1] " " $k }
    function visit(crate,    parts, count, k) {
      if (crate in seen || !(crate in below)) return
      seen[crate] = 1
      print crate
      count = split(below[crate], parts, " ")
      for (k = 1; k <= count; k++) visit(parts[k])
    }
    END { visit(name) }
  ' "$top/crates.txt"
}

# Prints a file of the sources that is newer than a program, or nothing. The arguments are the crate, the program, and the folders of the
# crates in which it looks.
newer_source() {
  local name=$1 program=$2 crate folder sources=("$top/crates.txt")
  shift 2
  for crate in $(crates_of "$name"); do
    for folder in "${@/#/"$top/crates/$crate/"}"; do
      if [ -d "$folder" ]; then sources+=("$folder"); fi
    done
  done
  find "${sources[@]}" -type f -newer "$program" -print -quit 2>/dev/null || true
}

# Prints why the proved program of a crate can't be run, or nothing if it can.
why_not_current() {
  local name=$1 program=$top/crates/$1/out/$1 file
  if [ ! -x "$program" ]; then
    echo "no proved program is built"
    return
  fi
  file=$(newer_source "$name" "$program" src specs proofs)
  if [ -n "$file" ]; then echo "${file#"$top/"} is newer than the proved program"; fi
}

# Returns whether the kept program without proofs is current: no source is newer than it, and the kit is the one that made it.
is_kept_current() {
  local name=$1 program=$top/out/unproved/$1 rt
  [ -x "$program" ] && [ -r "$program.made" ] && [ ! "$top/unproved" -nt "$program" ] || return 1
  [ -z "$(newer_source "$name" "$program" src)" ] || return 1
  rt=$(command -v rt) || return 0
  [ "$(sed -n 's/^rt //p' -- "$program.made")" = "$(stat -L -c '%s %Y %i' -- "$rt")" ]
}

# Sees to it that the kept program without proofs is current, and returns whether it is. Sets `unkept` to the reason if it isn't. The
# arguments are the crate, and why the proved program can't be run.
keep_unproved() {
  local status=0
  unkept=
  if is_kept_current "$1"; then return 0; fi
  command -v rt >/dev/null || no_answer "$1" "the command rt of the kit is not in PATH"
  unkept=$("$top/unproved" "$1" "$2") || status=$?
  # (an interrupt ends the launcher too)
  if [ "$status" -gt 128 ]; then exit "$status"; fi
  return "$status"
}

# Runs the kept program of a crate, and exits with its status. The arguments are the crate and the program's own.
run_kept() {
  local name=$1 status=0
  shift
  # The shell's own message about a signal is left out.
  { (ulimit -c 0 && exec "$top/out/unproved/$name" "$@" 2>&3); } 3>&2 2>/dev/null || status=$?
  if [ "$status" -eq "$FAILED_CHECK" ]; then no_answer "$name" "an internal check failed; run it again by \`rt try\` in crates/$name"; fi
  exit "$status"
}

# Prints on standard error why there is no output, and exits.
no_answer() {
  echo "$1: $2" >&2
  exit "$NO_ANSWER"
}

# Begins a run by `rt try`. Sets `room` to a folder for the input of the program named by the argument, and `given` to no words.
begin_try() {
  room=$(mktemp -d) && room=$(cd -P -- "$room" && pwd) || no_answer "$1" "there is no temporary folder"
  trap 'rm -rf -- "$room"' EXIT
  given=()
}

# Gives the program a copy of a file, or of standard input for -, because it runs in a folder of its own. The arguments are the file
# and its name there. Returns whether the file can be read.
give() {
  if [ "$1" = - ]; then
    cat >"$room/$2" 2>/dev/null || return
  else
    cat -- "$1" >"$room/$2" 2>/dev/null </dev/null || return
  fi
  given+=(--data "$2=$room/$2")
}

# Writes the path of the policy into a file in the place of the name of its copy, which the program knows it by.
restore_policy() {
  python3 -c 'import os, sys
name, copy, path = map(os.fsencode, sys.argv[1:])
content = open(name, "rb").read()
open(name, "wb").write(content.replace(copy, path))' "$1" "$policy_copy" "$policy"
}

# Runs a program by `rt try`, and exits. The arguments are its crate and its own arguments.
try_unproved() {
  local name=$1 status=0 last
  shift
  (cd -- "$top/crates/$name" && exec rt try --seconds 1000000 "${given[@]}" -- "$@") </dev/null >"$room/output" 2>"$room/faults" || status=$?
  if [ -n "${policy-}" ]; then
    restore_policy "$room/output" && restore_policy "$room/faults" || no_answer "$name" "the temporary folder can't be written to"
  fi
  last=$(tail -n 1 -- "$room/faults")
  case $last in
    "run=ended status=$status "*) ;;
    *) no_answer "$name" "the unproved build met a limit of rt try ($(limit_of "$room/faults")); ./build makes the proved program, which has none" ;;
  esac
  # The last two lines are from rt try.
  head -n -2 -- "$room/faults" >&2 || true
  [ ! -s "$room/output" ] || LC_ALL=C cat -- "$room/output" 2>"$room/unwritten" || unwritten $? "$status"
  exit "$status"
}

# Prints the limit of rt try that was met, in short: the last line of its output that isn't empty.
limit_of() {
  grep -v '^$' -- "$1" | tail -n 1 | cut -c 1-200
}

# Prints which program of a crate is current: `proved`, or `kept` for the one without proofs, which is made if it isn't there. Prints
# nothing if neither can be run.
current_build() {
  local why
  why=$(why_not_current "$1")
  if [ -z "$why" ]; then
    echo proved
  elif keep_unproved "$1" "$why"; then
    echo kept
  fi
}

# Runs the proved program of a crate if it is current, and else the one without proofs. Returns if neither can be run, and says why. The
# arguments are the crate and the program's own.
run_built() {
  local name=$1 why
  shift
  why=$(why_not_current "$name")
  if [ -z "$why" ]; then
    exec "$top/crates/$name/out/$name" "$@"
  fi
  if keep_unproved "$name" "$why"; then
    run_kept "$name" "$@"
  fi
  echo "$name: $why, and none without proofs is kept ($unkept): this answer comes from \`rt try\`, which checks it while it runs, and is not proved" >&2
}

# Returns whether a text wasn't written because the pipe is closed at its other end. Then the status of cat, the argument, is that of
# SIGPIPE, or cat says so where the signal is ignored.
is_closed_pipe() {
  [ "$1" -eq 141 ] || grep -q 'Broken pipe' "$room/unwritten"
}

# Exits as a program does that can't write, in `launch_feats` as `feats` does. A closed pipe is no fault. The arguments are the exit status
# of cat, and that of the program.
unwritten() {
  if is_closed_pipe "$1"; then exit "$2"; fi
  echo "cannot write" >&2
  exit 1
}

# Returns whether the arguments are UTF-8: rt try accepts no others.
are_text() {
  python3 -c 'import sys; "".join(sys.argv).encode()' "$@" 2>/dev/null
}

# Runs a program. The arguments are its crate, the number of arguments without which it doesn't read its input, and its own
# arguments; the first of those is the input, a file or - for standard input.
launch() {
  local name=$1 needs=$2 input
  shift 2
  run_built "$name" "$@"
  begin_try "$name"
  if ! are_text "$@"; then
    # The programs refuse such arguments as they refuse two unknown ones.
    try_unproved "$name" bad words
  elif [ $# -lt "$needs" ]; then
    try_unproved "$name" "$@"
  else
    # If the input can't be read, there is no file of this name.
    input=${1--}
    [ $# -eq 0 ] || shift
    give "$input" input || true
    try_unproved "$name" input "$@"
  fi
}

# Appends to `words` the value of an option of `feats`, with the name of a copy for each file. The arguments are the option, what is
# before the value in its word, and the value. A file that can't be read keeps its name, so that the program names it.
add_value() {
  local front=$2 file=$3 copy=input${#words[@]}
  case $1 in
    --metadata | --manifest | --old-manifest | --member-manifests) ;;
    --host | --target)
      case $3 in
        ?*=?*) front=$2${3%%=*}= file=${3#*=} ;;
        *) file= ;;
      esac
      ;;
    *) file= ;;
  esac
  if [ "$1" = --metadata ] && [ "$file" = - ]; then
    if ! give - "$copy"; then
      echo 'feats: cannot read `-`' >&2
      exit 2
    fi
    words+=("$front$copy")
  elif [ -n "$file" ] && [ "$file" != - ] && give "$file" "$copy"; then
    words+=("$front$copy")
  else
    words+=("$2$3")
  fi
}

# Appends to `words` the name of a copy of a document, or its own name if it can't be read.
add_document() {
  local copy=input${#words[@]}
  if give "$1" "$copy"; then
    words+=("$copy")
  else
    words+=("$1")
  fi
}

# Appends to `words` a word that is no option. The arguments are the command and the word. Those of `diff` and `check` name files.
add_word() {
  case $1 in
    diff) add_document "$2" ;;
    check)
      # Answers and faults name the policy, so its copy has a name that is in no other text.
      if [ "$2" != - ] && give "$2" "$policy_copy"; then
        policy=$2
        words+=("$policy_copy")
      else
        words+=("$2")
      fi
      ;;
    *) words+=("$2") ;;
  esac
}

# Returns whether an option of `feats` that names no file has the next word as its value.
takes_value() {
  case $1 in
    --resolver | --package | --features | --format | --invert | --depth | --edges | -p | -F | -i | -e) return 0 ;;
    *) return 1 ;;
  esac
}

# Runs the program `feats`. Some of its options and words name files. The arguments are its own.
launch_feats() {
  local words=() command=${1-} policy= policy_copy=policy.$$.$RANDOM.$RANDOM
  unwritten() {
    if is_closed_pipe "$1"; then exit "$2"; fi
    echo "feats: cannot write the answer" >&2
    exit 2
  }
  # (cargo-feats calls ./feats several times, so it finds the program once)
  case ${FEATS_BUILD-} in
    proved) exec "$top/crates/feats/out/feats" "$@" ;;
    kept) run_kept feats "$@" ;;
  esac
  run_built feats "$@"
  if ! are_text "$@"; then
    echo "feats: a word of the command line isn't UTF-8: rename the file" >&2
    exit 2
  fi
  begin_try feats
  if [ $# -gt 0 ]; then
    words=("$command")
    shift
  fi
  while [ $# -gt 0 ]; do
    case $1 in
      --metadata | --manifest | --old-manifest | --member-manifests | --host | --target)
        words+=("$1")
        if [ $# -gt 1 ]; then
          add_value "$1" "" "$2"
          shift
        fi
        ;;
      --metadata=* | --manifest=* | --old-manifest=* | --member-manifests=* | --host=* | --target=*) add_value "${1%%=*}" "${1%%=*}=" "${1#*=}" ;;
      -?*)
        words+=("$1")
        if takes_value "$1" && [ $# -gt 1 ]; then
          words+=("$2")
          shift
        fi
        ;;
      *) add_word "$command" "$1" ;;
    esac
    shift
  done
  try_unproved feats "${words[@]}"
}
