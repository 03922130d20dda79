# The platforms of a build: targets, flags and cfg texts, by which cargo chooses dependencies. Part of cargo-feats.

# The number of questions to cargo, and the settings that have been named.
questions=0 named=

# Lets cargo ask rustc for a build, and sets `asked` to the folder with the notes. The arguments are the targets of the words. The questions
# depend on the current folder and the environment alone, so the package is an empty one. Cargo would skip those whose answers it has kept
# in a file. Patches of the configuration were fetched for the document, so nothing is missing offline.
ask_cargo() {
  local triple words=()
  asked=$room/$((++questions))
  mkdir -- "$asked"
  : >"$asked/targets"
  printf '%s\n' '[package]' 'name = "asked"' 'version = "0.0.0"' 'edition = "2018"' '[lib]' 'path = "lib.rs"' '[workspace]' >"$asked/Cargo.toml"
  for triple in "$@"; do words+=(--target "$triple"); done
  RUSTC_WRAPPER=$script CARGO_FEATS_ASKED=$asked CARGO_CACHE_RUSTC_INFO=0 \
    run_cargo tree --offline --manifest-path "$asked/Cargo.toml" "${words[@]}" >/dev/null || cargo_failed
  # (cargo's own warnings and faults of the document come first)
  await_cargo document
  [ -s "$asked/host" ] && [ -s "$asked/host.cfg" ] || fail "\`$cargo tree\` doesn't run rustc by RUSTC_WRAPPER: set CARGO to a cargo that does"
}

# Adds a target to `platforms`, and what isn't from the words to `settings`. The arguments are its triple and the number of targets of the
# words.
add_target() {
  local flags
  refuse_file "$1"
  [ -s "$asked/$1.cfg" ] || fail "cargo builds nothing for the target \`$1\`"
  platforms+=(--target "$1=$asked/$1.cfg")
  flags=$(<"$asked/$1.flags")
  if [ "$2" -eq 0 ]; then
    settings+="; the target $1${flags:+ with the flags$flags}"
  elif [ -n "$flags" ]; then
    settings+="; the flags$flags for $1"
  fi
}

# Sets `platforms` to the words for feats about the platforms of a build, and says what isn't from the words. The arguments are the
# targets of the words.
find_platforms() {
  local host triple triples=("$@") settings='' flags
  ask_cargo "$@"
  host=$(<"$asked/host")
  platforms=(--host "$host=$asked/host.cfg")
  if [ $# -eq 0 ]; then mapfile -t triples <"$asked/targets"; fi
  for triple in "${triples[@]}"; do
    if [ "$triple" = host-tuple ]; then triple=$host; fi
    if [[ "${platforms[*]}" != *" --target $triple="* ]]; then add_target "$triple" $#; fi
  done
  if [ ${#triples[@]} -eq 0 ]; then
    flags=$(<"$asked/host.flags")
    settings=${flags:+; the flags$flags}
  fi
  if [ -n "$settings" ] && [ "$settings" != "$named" ]; then say "the environment or the configuration of cargo sets ${settings#; }"; fi
  named=$settings
  note_platforms
}
