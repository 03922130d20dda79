# What ./features adds at a terminal: the ids nearest to an unknown one, and the warnings about members before the others. What goes
# through a pipe stays as the program writes it. ./features sets `top`, the repository's folder, and includes launcher.sh.

# Prints what is nearest to the id that the last line of a file, the second argument, calls unknown. The first is the row file.
suggest() {
  local last kind near
  last=$(tail -n 1 -- "$2")
  case $last in
    'unknown feature: '*) kind=feature ;;
    'unknown package: '*) kind=package ;;
    *) return 0 ;;
  esac
  near=$(WORD=${last#*: } KIND=$kind LC_ALL=C awk -f "$top/lib/features/nearest.awk" "$1") || return 0
  if [ -n "$near" ]; then printf 'write one of these:\n%s\n' "$near" >&2; fi
}

# Runs the program with its words, and exits with its status.
run_features() {
  local faults status=0
  if [ $# -lt 2 ] || [ ! -f "$1" ]; then launch features 2 "$@"; fi
  set -o pipefail
  if [ -t 1 ] && [ $# -eq 2 ] && [ "$2" = warnings ]; then
    (launch features 2 "$@") | LC_ALL=C awk -f "$top/lib/features/members_first.awk" "$1" - || status=$?
    exit "$status"
  fi
  if [ -t 2 ] && faults=$(mktemp 2>/dev/null); then
    trap 'rm -f -- "$faults"' EXIT
    { (launch features 2 "$@") 2>&1 >&3 | tee -- "$faults" >&2; } 3>&1 || status=$?
    suggest "$1" "$faults"
    exit "$status"
  fi
  launch features 2 "$@"
}
