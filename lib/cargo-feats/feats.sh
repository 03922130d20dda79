# The program feats: its words for each build, and its answers and faults. Part of cargo-feats.

# Edits the line of feats about its usage: the options that this script adds are left out.
no_added='/^Usage: [^ ]+ /{ s//Usage: cargo feats /; s/ --(metadata|host|manifest) <[^>]*>//g; }'

# Sets `wanted` to the targets of the words of a build. The argument is its number.
find_targets() {
  local number
  wanted=()
  for number in "${!targets[@]}"; do
    case ${target_builds[number]} in
      0 | "$1") wanted+=("${targets[number]}") ;;
    esac
  done
}

# Appends the workspace's own manifest to `words`, unless those of a build name a resolver. The argument is the build's number.
add_manifest() {
  [ -z "${has_resolver[0]-}${has_resolver[$1]-}" ] || return 0
  await_root
  words+=(--manifest "$root")
}

# Sets `words` to those of the builds for feats. The words of each build begin with its platforms and its manifest. With an argument each
# build has `platforms` as they are.
find_words() {
  local place
  words=()
  if [ "$builds" -eq 0 ]; then
    [ $# -gt 0 ] || find_platforms "${targets[@]}"
    words=("${platforms[@]}")
    add_manifest 0
  fi
  for place in "${!for_feats[@]}"; do
    words+=("${for_feats[place]}")
    if [ -n "${build_at[place]-}" ]; then
      find_targets "${build_at[place]}"
      [ $# -gt 0 ] || find_platforms "${wanted[@]}"
      words+=("${platforms[@]}")
      add_manifest "${build_at[place]}"
    fi
  done
}

# Runs feats, and sets `status`, and `faults` to its messages. The answer is kept until it is known that the document lacks nothing. The argument
# is the path of the document.
run_feats() {
  local document=()
  names_documents || document=(--metadata "$1")
  status=0
  : >"$room/answer"
  faults=$("$top/feats" "$command" "${document[@]}" "${words[@]}" 2>&1 >"$room/answer") || status=$?
  case $status in
    0 | 1 | 2 | 70) ;;
    *)
      faults+=${faults:+$'\n'}"cargo-feats: feats ended with the status $status"
      status=2
      ;;
  esac
}

# Prints the messages of feats.
say_faults() {
  if [ -n "$faults" ]; then sed -E "$no_added" <<<"$faults" >&2 || true; fi
}

# Sets FEATS_BUILD to the program that ./feats of the repository runs, so that ./feats doesn't look for it at each call. If no program is current,
# one is made, and a terminal shows how far it is.
find_build() {
  export FEATS_BUILD=''
  [ ! -f "$top/launcher.sh" ] || FEATS_BUILD=$(. "$top/launcher.sh" && current_build feats) || exit
}

# Ends after a fault of the words, or of the path of the policy, before cargo is run. feats reads these first. They are right if its fault is that
# the next file doesn't exist: the document, or the cfg text that it reads before two documents.
check_words() {
  local place path nowhere=/dev/null/none host=/dev/null
  [ "$builds" -ne 1 ] || fail "\`diff\` has one \`--\`: write both, as in \`diff -- WORDS -- WORDS\`"
  if names_documents; then host=$nowhere; fi
  platforms=(--host "host=$host")
  find_words as-they-are
  for place in "${!words[@]}"; do
    path=${words[place]#--*manifest=}
    # (a pipe or a terminal can be read only once)
    if [ -p "$path" ] || [ -c "$path" ]; then words[place]=${words[place]%"$path"}/dev/null; fi
  done
  find_build
  run_feats "$nowhere" </dev/null
  if [[ $faults = *"$nowhere"* ]]; then status=0; fi
  # (the rest are faults of the words, or of the program)
  faults=$(grep -vF -- "$nowhere" <<<"$faults" || true)
  say_faults
  [ "$status" -lt 2 ] || exit "$status"
}
