# Commands of cargo: documents of `cargo metadata`, root manifests and the manifests of members. Part of cargo-feats.

# The cargo that is run, whether it has been, and the workspace's root manifest.
cargo=${CARGO:-cargo} has_run='' root=/dev/null

# Ends if a tool is missing. The arguments are its name, the variable that replaces it, and the name or the path that is used.
need() {
  type -P -- "$3" >/dev/null || fail "cannot find \`$3\`: put $1 in PATH, or set $2 to its path"
}

# Runs a command of cargo. The first command shows cargo's warnings. The messages of a later one are shown only if it fails, after the faults of
# the commands that run beside it, which explain it.
run_cargo() {
  local ended=0
  set -- "${toolchain[@]}" "$@" "${for_each[@]}"
  if [ -z "$has_run" ]; then
    has_run=yes
    "$cargo" "$@"
    return
  fi
  "$cargo" "$@" 2>"$room/said" || ended=$?
  if [ "$ended" -ne 0 ]; then
    await_cargo document
    await_cargo root
    cat -- "$room/said" >&2 || true
  fi
  return "$ended"
}

# Starts a command of cargo beside this script. The first argument is the name of the command and of the file for its output. The first command
# shows cargo's warnings, as for `run_cargo`.
start_cargo() {
  local name=$1
  shift
  set -- "${toolchain[@]}" "$@" "${for_each[@]}"
  : >"$room/$name.said"
  if [ -z "$has_run" ]; then
    has_run=yes
    "$cargo" "$@" >"$room/$name" &
  else
    "$cargo" "$@" >"$room/$name" 2>"$room/$name.said" &
  fi
  running[$name]=$!
}

# Waits for a command that was started, unless it has ended. If it fails, its messages are shown after a fault of the document.
await_cargo() {
  local ended=0
  [ -n "${running[$1]-}" ] || return 0
  wait "${running[$1]}" || ended=$?
  unset "running[$1]"
  [ "$ended" -ne 0 ] || return 0
  [ "$1" = document ] || await_cargo document
  cat -- "$room/$1.said" >&2 || true
  cargo_failed
}

# Ends after a fault that cargo has said.
cargo_failed() {
  [ -n "${RUSTC-}" ] || type -P rustc >/dev/null || say "there is no \`rustc\` in PATH: put it there, or set RUSTC to its path"
  exit 2
}

# Prints the document of `cargo metadata`. The arguments are the words about features.
document() {
  run_cargo metadata --format-version 1 "$@" "${for_cargo[@]}"
}

# Starts to make the document with all features, and to find the root manifest, while cargo and rustc answer other questions.
start_document() {
  names_documents || start_cargo document metadata --format-version 1 --all-features "${for_cargo[@]}"
  if [ -z "${has_resolver[0]-}" ] || [ "$command" = slim ]; then start_cargo root locate-project --workspace --message-format plain "${for_cargo[@]}"; fi
}

# Sets `root` to the path of the root manifest, if `start_document` looks for it.
await_root() {
  await_cargo root
  if [ -s "$room/root" ]; then root=$(<"$room/root"); fi
}

# Makes the document anew with the features of the selection, because it lacks packages that they turn on. Returns whether there is one.
document_anew() {
  local IFS=$', \t\n\v\f\r' word all=() slashed=()
  # (split as cargo does)
  for word in ${features[*]}; do
    if [ -n "$word" ]; then all+=("$word"); fi
    if [[ $word = */* ]]; then slashed+=("$word"); fi
  done
  [ ${#slashed[@]} -gt 0 ] || return
  IFS=,
  document --all-features --features "${slashed[*]}" >"$room/document" 2>/dev/null || document --features "${all[*]}" "${plain[@]}" >"$room/document" 2>/dev/null
}

# Writes the root manifest and the manifests of the members to the file `manifests`, each ended by a NUL byte. Only they say which dependencies
# are inherited from [workspace.dependencies].
gather_manifests() {
  local line path paths=("$root")
  document --no-deps >"$room/members" || cargo_failed
  # (a path is a JSON string; `printf %b` reads all escapes that cargo writes but `\"`)
  while IFS= read -r line; do
    line=${line#*:\"}
    line=${line%\"}
    printf -v path '%b' "${line//\\\"/\\x22}"
    paths+=("$path")
  done < <(LC_ALL=C grep -aoE '"manifest_path":"([^"\\]|\\.)*"' "$room/members")
  for path in "${paths[@]}"; do
    # (a member may have the key in its own metadata)
    if [ -f "$path" ]; then
      cat -- "$path"
      printf '\0'
    fi
  done >"$room/manifests"
}

# Writes the path of the root manifest to the file `located`. Cargo's messages are shown only if it fails.
locate() {
  local has_run=yes
  run_cargo locate-project --workspace --message-format plain "${for_cargo[@]}" >"$room/located"
}
