# The wrapper of rustc: notes what cargo asks rustc about platforms, and keeps what rustc answers. Part of cargo-feats.
#
# While cargo runs cargo-feats as the wrapper of rustc (`ask_cargo`), the arguments are the command. The notes are files of the folder
# CARGO_FEATS_ASKED: `version` has the path of rustc and its answer to `-vV`, `host` the triple of the host, and `targets` those of the
# targets. `PLATFORM.cfg` has the cfg text by which cargo chooses dependencies, and `PLATFORM.flags` the flags, each after a space. PLATFORM
# is a triple, or `host`.
#
# The *facts* of a question are the cfg text, and the output and the messages of rustc for cargo. They are kept in a file, so that a later
# run doesn't ask rustc (docs/PLANS.md). The file has the key, the facts and their sum, each ended by a NUL byte.

# The flags with which facts are kept. Another flag may name a file, and its content may change.
kept_flags='^( (-C ?|--codegen[ =])(link-args?|linker|panic|target-cpu|target-feature)=[[:alnum:]_=+,-]*| --cfg[ =][[:alnum:]_]+)*$'

# Notes the version of rustc, for which cargo asks first. Then prints it and ends the script.
note_version() {
  local said
  # If it fails, so does the command itself, and cargo says why.
  said=$("$@" 2>/dev/null </dev/null) || return 0
  printf '%s\n' "$1" "$said" >"$CARGO_FEATS_ASKED/version"
  printf '%s\n' "$said"
  exit 0
}

# Sets `version` to the answer of a command to `-vV`: the noted answer, if it is of the same rustc.
find_version() {
  local noted='' rustc
  if [ -f "$CARGO_FEATS_ASKED/version" ]; then IFS= read -r -d '' noted <"$CARGO_FEATS_ASKED/version" || true; fi
  rustc=${noted%%$'\n'*} version=${noted#*$'\n'}
  [ "$rustc" = "$*" ] || version=$("$@" -vV)
}

# Sets `key` to everything that the facts of the question depend on, and `file` to the path of their file. `file` is empty if the facts aren't
# kept. `native` stands for the processor of the machine, and two programs rustc without a hash may have the same version.
find_file() {
  local folder=${CARGO_FEATS_CACHE-} program=$1 name stamp sum
  file=''
  if [ -z "$folder" ]; then folder=${XDG_CACHE_HOME:-${HOME:-.}/.cache}/cargo-feats; fi
  [[ $folder = /* && $2 = - && $version = *$'\ncommit-hash: '[0-9a-f]* ]] || return 0
  [[ ${flags//$'\x1f'/ } =~ $kept_flags && $flags != *native* ]] || return 0
  [[ $program = */* ]] || program=$(type -P -- "$program") || return 0
  stamp=$(stat -L -c '%n %s %Y %i' -- "$program" 2>/dev/null) || return 0
  printf -v key '%s\n' 'facts 1' "$version" "$stamp" "$line"
  for name in "${!RUST@}"; do printf -v key '%s%s=%q\n' "$key" "$name" "${!name}"; done
  sum=$(sha256sum <<<"$key") || return 0
  file=$folder/${sum%% *}
}

# Sets `facts` to those in the file. Returns whether the file is whole, and belongs to this user and this key.
read_facts() {
  local parts=() sum
  [ -n "$file" ] && [ -f "$file" ] && [ -O "$file" ] && mapfile -t -d '' parts 2>/dev/null <"$file" && [ ${#parts[@]} -eq 5 ] || return
  sum=$(printf '%s\0' "${parts[@]:0:4}" | sha256sum)
  [ "${parts[0]}" = "$key" ] && [ "${parts[4]}" = "${sum%% *}" ] || return
  facts=("${parts[@]:1:3}")
}

# Sets `facts` to the cfg text that rustc prints, and also to the other facts if they are kept. Returns whether rustc prints a cfg text.
ask_facts() {
  local word words=() said
  for word in "$@"; do
    if [[ $word != --print=* || $word = --print=cfg ]]; then words+=("$word"); fi
  done
  said=$("${words[@]}" 2>/dev/null </dev/null) || return
  # Cargo drops the line `proc_macro`.
  said=$'\n'$said$'\n'
  said=${said/$'\nproc_macro\n'/$'\n'}
  facts=("${said#$'\n'}")
  [ -z "$file" ] || keep_facts "$@" 2>/dev/null || true
}

# Writes the file, if the target is built in and rustc is still the same. (Any other target is described by a file, which may change.)
keep_facts() {
  local known said sum new
  known=$("$1" --print target-list </dev/null) && [[ $'\n'$known$'\n' = *$'\n'$triple$'\n'* ]] || return
  said=$("$@" 2>"$CARGO_FEATS_ASKED/messages" </dev/null) || return
  facts+=("$said" "$(<"$CARGO_FEATS_ASKED/messages")")
  known=$("$1" -vV </dev/null) && [ "$known" = "${version%$'\n'}" ] || return
  sum=$(printf '%s\0' "$key" "${facts[@]}" | sha256sum) || return
  umask 077
  mkdir -p -- "${file%/*}" && new=$(mktemp -- "$file.XXXXXX") || return
  printf '%s\0' "$key" "${facts[@]}" "${sum%% *}" >"$new" && mv -f -- "$new" "$file" || rm -f -- "$new"
}

# Notes a platform about which cargo asks rustc. If all facts are there, prints the answer and ends the script.
note_platform() {
  local IFS=$'\x1f' line words flags version key file facts=() platform='' triple
  line="$*"
  [[ $line = *$'\x1f'--print=file-names*$'\x1f'--print=cfg* ]] || return 0
  flags=${line#*$'\x1f'--print=file-names}
  flags=${flags%%$'\x1f'--crate-type$'\x1f'*}
  if [[ $flags = *$'\x1f'--target$'\x1f'* ]]; then
    platform=${flags##*$'\x1f'--target$'\x1f'}
    platform=${platform%%$'\x1f'*}
    flags=${flags%$'\x1f'--target$'\x1f'*}
  fi
  words=(${line%%$'\x1f'-$'\x1f'*})
  find_version "${words[@]}" || return 0
  triple=${version#*$'\nhost: '}
  triple=${platform:-${triple%%$'\n'*}}
  find_file "$@"
  read_facts || ask_facts "$@" || return 0
  if [ -n "$platform" ]; then printf '%s\n' "$platform" >>"$CARGO_FEATS_ASKED/targets"; else printf '%s\n' "$triple" >"$CARGO_FEATS_ASKED/host"; fi
  platform=${platform:-host}
  platform=$CARGO_FEATS_ASKED/${platform##*/}
  printf '%s' "${facts[0]}" >"$platform.cfg"
  words=(${flags#$'\x1f'})
  if [ ${#words[@]} -gt 0 ]; then printf ' %q' "${words[@]}"; fi >"$platform.flags"
  [ ${#facts[@]} -eq 3 ] || return 0
  if [ -n "${facts[2]}" ]; then printf '%s\n' "${facts[2]}" >&2; fi
  printf '%s\n' "${facts[1]}"
  exit 0
}
