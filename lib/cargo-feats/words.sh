# The words of the command line. Part of cargo-feats.

# The command, whether its page is asked for, and whether cargo runs this script.
command='' asks_help='' by_cargo=''
# The words of the selection, and those for feats. `build_at` maps the place of a `--` in `for_feats` to the number of the build whose words
# follow it, from 1. `target_builds` has the build of each target, and 0 for a target of all builds. `has_resolver` is not empty at the builds
# whose words name a resolver or a manifest, in place of the workspace's own.
features=() plain=() targets=() target_builds=() for_feats=() build_at=() builds=0 has_resolver=()
# The words for cargo: the one before its command, those for each command, and those about the workspace.
toolchain=() for_each=() for_cargo=()
# The places in `for_feats` of the words that are no options.
word_places=()

# Ends if a target is the path of a specification.
refuse_file() {
  [[ $1 != *.json ]] || fail "the target \`$1\` is a file: name one of \`rustc --print target-list\`"
}

# Returns whether an option has a value.
has_value() {
  case $1 in
    -p | --package | -F | --features | --target | --resolver | --manifest | --old-manifest | --format) ;;
    --exclude | -i | --invert | --depth | -e | --edges) ;;
    --command | --bin | --example | --test | --bench) ;;
    --manifest-path | --config | -Z | -C | --color) ;;
    --profile | -j | --jobs | --message-format) ;;
    -o | --output | --write | --verify) ;;
    *) return 1 ;;
  esac
}

# Takes an option with a value. The arguments are its name, its value, and its one or two words.
take() {
  case $1 in
    -p | --package) for_feats+=(-p "$2") ;;
    # (feats doesn't split at a vertical tab)
    -F | --features) features+=("$2") for_feats+=(-F "${2//$'\v'/ }") ;;
    --target)
      refuse_file "$2"
      targets+=("$2") target_builds+=("$builds")
      ;;
    --manifest-path) for_cargo+=(--manifest-path "$2") ;;
    --config | -Z | --color) for_each+=("$1" "$2") ;;
    # (`cd -` is another folder)
    -C) [ -d "$2" ] && cd -- "${2/#-/./-}" 2>/dev/null || fail "cannot change to the folder \`$2\`" ;;
    --profile | -j | --jobs | --message-format) ;;
    -o | --output) has_output=yes output=$2 ;;
    --write | --verify)
      [[ -z $joins || $joins = "$1" ]] || fail "write either \`--write\` or \`--verify\`"
      joins=$1 join_word=$2
      ;;
    --format) format=$2 for_feats+=("${@:3}") ;;
    --resolver | --manifest) has_resolver[builds]=yes for_feats+=("${@:3}") ;;
    *) for_feats+=("${@:3}") ;;
  esac
}

# Takes the command, or a word before it.
take_command() {
  case $1 in
    plan | why | why-not | specs | list | duplicates | tree | dot | report | check | slim | diff) command=$1 ;;
    help) asks_help=yes ;;
    # Cargo runs `cargo-feats feats WORDS`, and sets CARGO to itself. Only the cargo of rustup, which is in PATH, takes a toolchain.
    feats) by_cargo=yes ;;
    +?*)
      toolchain=("$1")
      if [ -n "$by_cargo" ]; then cargo=cargo; fi
      ;;
    *)
      usage >&2 || true
      fail "\`$1\` is no command: write the command first"
      ;;
  esac
}

# Takes an option without a value, or another word.
take_flag() {
  case $1 in
    -h | --help) asks_help=yes ;;
    --all-features | --no-default-features) plain+=("$1") for_feats+=("$1") ;;
    --locked | --offline | --frozen) for_cargo+=("$1") ;;
    -q | --quiet | -v | --verbose) for_each+=("$1") ;;
    -r | --release | --keep-going) ;;
    --report) has_report=yes for_feats+=("$1") ;;
    --)
      builds=$((builds + 1))
      build_at[${#for_feats[@]}]=$builds
      for_feats+=("$1")
      ;;
    -?*) for_feats+=("$1") ;;
    *) if [ -n "$command" ]; then word_places+=("${#for_feats[@]}") for_feats+=("$1"); else take_command "$1"; fi ;;
  esac
}

read_words() {
  local value
  typed=("$@")
  if [ "${1-}" = feats ]; then typed=("${@:2}"); fi
  while [ $# -gt 0 ]; do
    if has_value "$1"; then
      # (`-j -1` leaves a processor to others)
      [[ $# -gt 1 && ($2 != -?* || $1 = -j || $1 = --jobs) ]] || fail "$1 needs a value"
      take "$1" "$2" "$1" "$2"
      shift
    elif [[ $1 = --*=* ]] && has_value "${1%%=*}"; then
      take "${1%%=*}" "${1#*=}" "$1"
    elif [[ $1 = -[!-]?* ]] && has_value "${1:0:2}"; then
      value=${1:2}
      take "${1:0:2}" "${value#=}" "$1"
    elif [[ $1 = -[hqrv]?* ]]; then
      # Several letters are several options.
      set -- "${1:0:2}" "-${1:2}" "${@:2}"
      continue
    elif [[ $1 = -V || $1 = --version ]] && [ -z "$command" ]; then
      version
      exit 0
    elif [ "$1" = -- ] && [ "$command" != diff ]; then
      for_feats+=("$@")
      return
    else
      take_flag "$1"
    fi
    shift
  done
}

# Returns whether the documents are words: those of `diff OLD NEW`.
names_documents() {
  [ "$command" = diff ] && [ "$builds" -eq 0 ]
}
