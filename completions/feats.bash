# Completions of bash for `feats`, `cargo feats` and `cargo-feats`. Made by completions/make from the texts of --help.

# Prints the words of a list. The arguments are the program, feats or cargo, and the name of a command or `commands`.
_feats_list() {
  case "$1 $2" in
    'feats commands' | 'cargo commands') echo 'plan why why-not specs list duplicates tree dot report check diff slim help' ;;
    'feats plan') echo '--summary --metadata --host --target --resolver --manifest -p --package --workspace --exclude -F --features --all-features --no-default-features --command --lib --bins --bin --examples --example --tests --test --benches --bench --all-targets --format -h --help' ;;
    'feats why') echo '--all --routes --metadata --host --target --resolver --manifest -p --package --workspace --exclude -F --features --all-features --no-default-features --command --lib --bins --bin --examples --example --tests --test --benches --bench --all-targets --format -h --help' ;;
    'feats why-not' | 'feats specs' | 'feats report') echo '--metadata --host --target --resolver --manifest -p --package --workspace --exclude -F --features --all-features --no-default-features --command --lib --bins --bin --examples --example --tests --test --benches --bench --all-targets --format -h --help' ;;
    'feats list') echo '--unused --metadata --host --target --resolver --manifest -p --package --workspace --exclude -F --features --all-features --no-default-features --command --lib --bins --bin --examples --example --tests --test --benches --bench --all-targets --format -h --help' ;;
    'feats duplicates') echo '--alone --places --metadata --host --target --resolver --manifest -p --package --workspace --exclude -F --features --all-features --no-default-features --command --lib --bins --bin --examples --example --tests --test --benches --bench --all-targets --format -h --help' ;;
    'feats tree') echo '-i --invert --depth -e --edges --metadata --host --target --resolver --manifest -p --package --workspace --exclude -F --features --all-features --no-default-features --command --lib --bins --bin --examples --example --tests --test --benches --bench --all-targets --format -h --help' ;;
    'feats dot') echo '-e --edges --metadata --host --target --resolver --manifest -p --package --workspace --exclude -F --features --all-features --no-default-features --command --lib --bins --bin --examples --example --tests --test --benches --bench --all-targets -h --help' ;;
    'feats check') echo '--every-choice --strict --metadata --host --target --resolver --manifest -p --package --workspace --exclude -F --features --all-features --no-default-features --command --lib --bins --bin --examples --example --tests --test --benches --bench --all-targets --format -h --help' ;;
    'feats diff') echo '--old-manifest --report --host --target --resolver --manifest -p --package --workspace --exclude -F --features --all-features --no-default-features --command --lib --bins --bin --examples --example --tests --test --benches --bench --all-targets --format -h --help' ;;
    'feats slim') echo '--member-manifests --metadata --host --target --resolver --manifest -p --package --workspace --exclude -F --features --all-features --no-default-features --command --lib --bins --bin --examples --example --tests --test --benches --bench --all-targets --format -h --help' ;;
    'feats help' | 'cargo help') echo '' ;;
    'cargo plan') echo '--summary --target --resolver --manifest -p --package --workspace --exclude -F --features --all-features --no-default-features --command --lib --bins --bin --examples --example --tests --test --benches --bench --all-targets --format -h --help --manifest-path --locked --offline --frozen --config -Z -q --quiet -v --verbose --color -C -r --release --profile -j --jobs --keep-going --message-format' ;;
    'cargo why') echo '--all --routes --target --resolver --manifest -p --package --workspace --exclude -F --features --all-features --no-default-features --command --lib --bins --bin --examples --example --tests --test --benches --bench --all-targets --format -h --help --manifest-path --locked --offline --frozen --config -Z -q --quiet -v --verbose --color -C -r --release --profile -j --jobs --keep-going --message-format' ;;
    'cargo why-not' | 'cargo specs' | 'cargo slim') echo '--target --resolver --manifest -p --package --workspace --exclude -F --features --all-features --no-default-features --command --lib --bins --bin --examples --example --tests --test --benches --bench --all-targets --format -h --help --manifest-path --locked --offline --frozen --config -Z -q --quiet -v --verbose --color -C -r --release --profile -j --jobs --keep-going --message-format' ;;
    'cargo list') echo '--unused --target --resolver --manifest -p --package --workspace --exclude -F --features --all-features --no-default-features --command --lib --bins --bin --examples --example --tests --test --benches --bench --all-targets --format -h --help --manifest-path --locked --offline --frozen --config -Z -q --quiet -v --verbose --color -C -r --release --profile -j --jobs --keep-going --message-format' ;;
    'cargo duplicates') echo '--alone --places --target --resolver --manifest -p --package --workspace --exclude -F --features --all-features --no-default-features --command --lib --bins --bin --examples --example --tests --test --benches --bench --all-targets --format -h --help --manifest-path --locked --offline --frozen --config -Z -q --quiet -v --verbose --color -C -r --release --profile -j --jobs --keep-going --message-format' ;;
    'cargo tree') echo '-i --invert --depth -e --edges --target --resolver --manifest -p --package --workspace --exclude -F --features --all-features --no-default-features --command --lib --bins --bin --examples --example --tests --test --benches --bench --all-targets --format -h --help --manifest-path --locked --offline --frozen --config -Z -q --quiet -v --verbose --color -C -r --release --profile -j --jobs --keep-going --message-format' ;;
    'cargo dot') echo '-e --edges --target --resolver --manifest -p --package --workspace --exclude -F --features --all-features --no-default-features --command --lib --bins --bin --examples --example --tests --test --benches --bench --all-targets -h --help --manifest-path --locked --offline --frozen --config -Z -q --quiet -v --verbose --color -C -r --release --profile -j --jobs --keep-going --message-format' ;;
    'cargo report') echo '--target --resolver --manifest -p --package --workspace --exclude -F --features --all-features --no-default-features --command --lib --bins --bin --examples --example --tests --test --benches --bench --all-targets --format -h --help -o --output --manifest-path --locked --offline --frozen --config -Z -q --quiet -v --verbose --color -C -r --release --profile -j --jobs --keep-going --message-format' ;;
    'cargo check') echo '--every-choice --strict --target --resolver --manifest -p --package --workspace --exclude -F --features --all-features --no-default-features --command --lib --bins --bin --examples --example --tests --test --benches --bench --all-targets --format -h --help --manifest-path --locked --offline --frozen --config -Z -q --quiet -v --verbose --color -C -r --release --profile -j --jobs --keep-going --message-format' ;;
    'cargo diff') echo '--old-manifest --report --target --resolver --manifest -p --package --workspace --exclude -F --features --all-features --no-default-features --command --lib --bins --bin --examples --example --tests --test --benches --bench --all-targets --format -h --help -o --output --manifest-path --locked --offline --frozen --config -Z -q --quiet -v --verbose --color -C -r --release --profile -j --jobs --keep-going --message-format' ;;
  esac
}

# Prints what completes the value of an option, or nothing if it has none. The arguments are the program and the option.
_feats_value() {
  case "$1 $2" in
    'feats --metadata' | 'feats --manifest' | 'feats --old-manifest' | 'feats --member-manifests' | 'cargo --manifest' | 'cargo --manifest-path' | 'cargo -C' | 'cargo -o' | 'cargo --output' | 'cargo --old-manifest') echo files ;;
    'feats --host' | 'feats --target') echo platforms ;;
    'feats --resolver' | 'cargo --resolver') echo 'words 1 2 3' ;;
    'feats -p' | 'feats --package' | 'feats --exclude' | 'feats -i' | 'feats --invert' | 'cargo -p' | 'cargo --package' | 'cargo --exclude' | 'cargo -i' | 'cargo --invert') echo packages ;;
    'feats -F' | 'feats --features' | 'feats --bin' | 'feats --example' | 'feats --test' | 'feats --bench' | 'feats --depth' | 'feats -e' | 'feats --edges' | 'cargo -F' | 'cargo --features' | 'cargo --bin' | 'cargo --example' | 'cargo --test' | 'cargo --bench' | 'cargo --config' | 'cargo -Z' | 'cargo --color' | 'cargo --profile' | 'cargo -j' | 'cargo --jobs' | 'cargo --message-format' | 'cargo --depth' | 'cargo -e' | 'cargo --edges') echo none ;;
    'feats --command' | 'cargo --command') echo 'words build test' ;;
    'feats --format' | 'cargo --format') echo 'words text json' ;;
    'cargo --target') echo triples ;;
  esac
}

# Prints what completes a word of a command. The arguments are the command and the number of the word.
_feats_word() {
  case "$1 $2" in
    'why 0' | 'why-not 0' | 'list 0') echo packages ;;
    'check 0' | 'diff 0' | 'diff 1') echo files ;;
    'help 0') echo 'words plan why why-not specs list duplicates tree dot report check diff slim' ;;
  esac
}

# Prints the names of the packages in the nearest Cargo.lock. A stranger may have written it, so only names of plain characters count.
_feats_packages() {
  local folder=$PWD
  until [ -f "$folder/Cargo.lock" ]; do
    [ -n "$folder" ] || return
    folder=${folder%/*}
  done
  env LC_ALL=C sed -n 's/^name = "\([A-Za-z0-9_-]\{1,\}\)"$/\1/p' "$folder/Cargo.lock" | sort -u
}

# Prints the triples of plain characters that rustc lists. A file in the folder may choose that rustc.
_feats_triples() {
  rustc --print target-list 2>/dev/null | env LC_ALL=C sed -n '/^[A-Za-z0-9_.-]\{1,\}$/p'
}

# Completes `part` by the words of a list that begin with it, each with `suffix` after it. Unlike `compgen -W` it expands no word.
_feats_by_list() {
  local part=$1 list=$2 suffix=${3-} words=() word
  IFS=$' \n' read -r -d '' -a words <<<"$list"
  for word in "${words[@]}"; do
    if [[ $word == "$part"* ]]; then COMPREPLY+=("$word$suffix"); fi
  done
}

# Completes `part`, the last word or what follows its `=`, by what a table says. The name of a file may have blanks and any other character.
_feats_by_kind() {
  local part=$2 name
  case $1 in
    files)
      while IFS= read -r name; do COMPREPLY+=("$name"); done < <(compgen -f -- "$part")
      compopt -o filenames 2>/dev/null
      ;;
    platforms)
      if [[ $part == *=* ]]; then
        _feats_by_kind files "${part#*=}"
      else
        _feats_by_list "$part" "$(_feats_triples)" =
        compopt -o nospace 2>/dev/null
      fi
      ;;
    triples) _feats_by_list "$part" "host-tuple $(_feats_triples)" ;;
    packages) _feats_by_list "$part" "$(_feats_packages)" ;;
    words\ *) _feats_by_list "$part" "${1#words }" ;;
  esac
}

# Sets `line` to the words up to the cursor. Bash splits a word at its `=`; here it is whole.
_feats_join() {
  local word last=-1 open=
  for word in "${COMP_WORDS[@]:0:COMP_CWORD+1}"; do
    if [ "$last" -ge 0 ] && { [ "$word" = = ] || [ -n "$open" ]; }; then
      line[last]+=$word
    else
      last=$((last + 1))
      line[last]=$word
    fi
    open=
    if [ "$word" = = ]; then open=yes; fi
  done
}

# Completes the last word of `line`. The arguments are the program, and the number of words before the command.
_feats_complete() {
  local program=$1 count=$((${#line[@]} - 1)) at=$2 command= number=0 kind= word
  local current=${line[count]}
  for (( ; at < count; at++)); do
    word=${line[at]} kind=
    case $word in
      --*=* | +*) ;;
      -*) kind=$(_feats_value "$program" "$word") ;;
      *) if [ -n "$command" ]; then number=$((number + 1)); else command=$word; fi ;;
    esac
    # (the value of an option is no word of the command)
    if [ -n "$kind" ]; then at=$((at + 1)); fi
  done
  if [ -n "$kind" ] && [ "$at" -gt "$count" ]; then
    _feats_by_kind "$kind" "$current"
  elif [[ $current == --*=* ]]; then
    _feats_by_kind "$(_feats_value "$program" "${current%%=*}")" "${current#*=}"
  elif [ -z "$command" ]; then
    _feats_by_list "$current" "$(_feats_list "$program" commands) --help"
  elif [[ $current == -* ]]; then
    _feats_by_list "$current" "$(_feats_list "$program" "$command")"
  else
    _feats_by_kind "$(_feats_word "$command" "$number")" "$current"
  fi
}

# `feats` and `cargo-feats`.
_feats() {
  local line=() program=feats
  if [[ ${COMP_WORDS[0]} == *cargo-feats ]]; then program=cargo; fi
  COMPREPLY=()
  _feats_join
  _feats_complete "$program" 1
}

# `cargo`: after `feats` as cargo-feats, and else as without this file.
_feats_of_cargo() {
  local line=() at=1
  COMPREPLY=()
  if [[ ${COMP_WORDS[1]-} == +* ]]; then at=2; fi
  if [ "$COMP_CWORD" -gt "$at" ] && [ "${COMP_WORDS[at]}" = feats ]; then
    _feats_join
    _feats_complete cargo $((at + 1))
  elif [ -n "$_feats_cargo_before" ]; then
    "$_feats_cargo_before" "$@"
  fi
}

complete -F _feats feats cargo-feats
# (the package bash-completion loads the completions of cargo when they are first needed)
if ! complete -p cargo >/dev/null 2>&1 && declare -F _completion_loader >/dev/null; then _completion_loader cargo; fi
if [[ $(complete -p cargo 2>/dev/null) != *_feats_of_cargo* ]]; then
  _feats_cargo_before=$(complete -p cargo 2>/dev/null | sed -n 's/.* -F \([^ ]*\).*/\1/p')
fi
complete -o bashdefault -o default -F _feats_of_cargo cargo
