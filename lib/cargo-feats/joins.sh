# The lines `join` of `duplicates --alone` for the manifest of a member: --write and --verify. Part of cargo-feats.
#
# The lines are found over the document without those that the manifest has, so they don't depend on them. Lines change what members build, and may
# need further lines: they are added to the document, and feats is asked again, until nothing comes.
#
# In a document `{"name":"` and `{"id":"` begin objects only, because quotes in a string are escaped. With a line feed before each, every package,
# declaration, node and used package has a line of its own. The last declaration and the last used package end with what follows their list.

# The source of the packages for which there are lines.
CRATES_IO=registry+https://github.com/rust-lang/crates.io-index
# The option, --write or --verify, and its word.
joins='' join_word=''
# The member that the word names, as it is in the document; and its manifest, and whether it has a build script.
declare -A member=()
# The features of each line, by its table and the id of its package, each after a space. Names and versions of these packages, by id, and the names
# of which there are several versions.
declare -A joined=() join_name=() join_version=() several=()
# The lines of the tables, in the order of their bytes, each with a line feed.
declare -A new_lines=()
# The names in code of all packages with a library, by id.
declare -A code_name=()
# The names in the tables of the declarations that are no lines, and the names by which they call a package, by its name and the name in code, or `-`.
declare -A own_keys=() own_names=()
# What the last answer says: whether there are further lines, whether some have no effect, and which packages and members are at fault.
has_more='' without_effect=''
declare -A differing=() unplanned=()

# Ends if the option is none of the command. The answer for it is in JSON.
check_joins() {
  local word alone=''
  [ -n "$joins" ] || return 0
  for word in "${for_feats[@]}"; do
    case $word in
      --alone) alone=yes ;;
      --format | --format=*) fail "\`$joins\` has no answer in another format: leave \`--format\` out" ;;
    esac
  done
  [ "$command" = duplicates ] && [ -n "$alone" ] || fail "only \`duplicates --alone\` has the option \`$joins\`"
  for_feats=(--format json "${for_feats[@]}")
}

# Sets `decoded` to the text of a JSON string, as in `gather_manifests`.
decode() {
  printf -v decoded '%b' "${1//\\\"/\\x22}"
}

# Sets `member` to the member that the word names. Ends if there is none.
find_member() {
  local LC_ALL=C line decoded names=() head='^\{"name":"([^"\\]*)","version":"([^"\\]*)","id":"(([^"\\]|\\.)*)",'
  document --no-deps >"$room/members" || cargo_failed
  while IFS= read -r line; do
    [[ $line =~ $head ]] || continue
    names+=("${BASH_REMATCH[1]}")
    decode "${BASH_REMATCH[3]}"
    case $join_word in
      "${BASH_REMATCH[1]}" | "${BASH_REMATCH[1]}@${BASH_REMATCH[2]}" | "$decoded")
        member=([name]=${BASH_REMATCH[1]} [version]=${BASH_REMATCH[2]} [id]=${BASH_REMATCH[3]})
        line=${line#*'"manifest_path":"'}
        decode "${line%%'","metadata":'*}"
        member[manifest]=$decoded
        return
        ;;
    esac
  done < <(LC_ALL=C sed -E 's/\{"name":"[^"\\]*","version":"[^"\\]*","id":"/\n&/g' "$room/members")
  fail "no member of the workspace is \`$join_word\`: the members are $(listed "${names[@]}")"
}

# Prints the number of the first line of the document with a text. Returns whether there is one.
number_of() {
  local found
  found=$(LC_ALL=C grep -n -m 1 -aF -- "$1" "$room/lines") && printf '%s\n' "${found%%:*}"
}

# Puts the document into lines, and sets `declared` and `used` to those about what the member declares and uses, with the places of the first.
split_document() {
  local LC_ALL=C
  LC_ALL=C sed 's/{"name":"/\n&/g; s/{"id":"/\n&/g' "$room/document" >"$room/lines"
  declared_at=$(number_of "{\"name\":\"${member[name]}\",\"version\":\"${member[version]}\",\"id\":\"${member[id]}\",") &&
    used_at=$(number_of "{\"id\":\"${member[id]}\",\"dependencies\":[") || fail "\`$cargo metadata\` doesn't say what \`${member[name]}\` depends on"
  mapfile -t declared < <(sed -n "$declared_at,\${p;/],\"targets\":\\[/q}" "$room/lines")
  mapfile -t used < <(sed -n "$used_at,\${p;/],\"features\":\\[/q}" "$room/lines")
  member[script]=''
  if [[ ${declared[-1]%%'],"features":{'*} = *'"kind":["custom-build"]'* ]]; then member[script]=yes; fi
  find_code_names
}

# Sets `code_name` to the names of the libraries of the document.
find_code_names() {
  local line id='' head='^\{"name":"[^"\\]*","version":"[^"\\]*","id":"([^"\\]|\\.)*'
  local library='\{"kind":\["(lib|rlib|dylib|cdylib|staticlib|proc-macro)"[^]]*\],"crate_types":\[[^]]*\],"name":"[^"\\]*'
  code_name=()
  while IFS= read -r line; do
    case $line in
      '{"name":"'*) id=${line##*'"id":"'} ;;
      *) [ -n "${code_name[$id]-}" ] || code_name[$id]=${line##*'"name":"'} ;;
    esac
  done < <(LC_ALL=C grep -aoE "$head|$library" "$room/lines")
}

# Writes the document with the lines of `joined` in place of those that the manifest has to the file `joined`.
join_document() {
  local LC_ALL=C place declarations='' uses='' declared_now=("${declared[@]}") used_now=("${used[@]}")
  own_keys=() own_names=()
  for ((place = 1; place < ${#declared[@]}; place++)); do drop_declaration "$place"; done
  for place in "${!joined[@]}"; do add_line "${place%% *}" "${place#* }" "${joined[$place]}"; done
  add_first declared_now '"dependencies":[' "$declarations"
  add_first used_now '"deps":[' "$uses"
  {
    head -n "$((declared_at - 1))" "$room/lines"
    printf '%s\n' "${declared_now[@]}"
    sed -n "$((declared_at + ${#declared[@]})),$((used_at - 1))p" "$room/lines"
    printf '%s\n' "${used_now[@]}"
    tail -n "+$((used_at + ${#used[@]}))" "$room/lines"
  } >"$room/joined"
}

# Adds objects to the begin of a list. The arguments are the lines, the begin of the list, and the objects, each after a comma.
add_first() {
  local -n lines=$1
  local rest=${lines[0]#*"$2"} comma=,
  [ -n "$3" ] || return 0
  if [[ $rest = ']'* ]]; then comma=''; fi
  lines[0]=${lines[0]%%"$2"*}$2${3#,}$comma$rest
}

# Drops a declaration if it is a line of the manifest: a platform that never holds is as good. Else no line may have its name in its table. The
# argument is the place of the declaration.
drop_declaration() {
  local string='"([^"\\]|\\.)*"' line=${declared[$1]} form table='' name key code=-
  form="^\\{\"name\":\"([^\"\\\\]*)\",\"source\":(null|$string),\"req\":$string,\"kind\":(null|$string),\"rename\":(null|$string),"
  form+="\"optional\":[a-z]*,\"uses_default_features\":[a-z]*,\"features\":\\[[^]]*\\],\"target\":(null|$string)"
  [[ $line =~ $form ]] || return 0
  name=${BASH_REMATCH[1]} key=${BASH_REMATCH[1]}
  if [ "${BASH_REMATCH[7]}" != null ]; then key=${BASH_REMATCH[7]//\"/} code=${key//-/_}; fi
  case ${BASH_REMATCH[9]}${BASH_REMATCH[5]} in
    nullnull) table=dependencies ;;
    'null"build"') table=build-dependencies ;;
  esac
  if [ -n "${kept_keys[$table $key]-}" ]; then
    kept_keys[$table $key]=found
    declared_now[$1]=${BASH_REMATCH[0]%null}'"cfg(any())"'${line#"${BASH_REMATCH[0]}"}
  else
    own_keys[$table $key]=yes
    own_names[$name $code]=$key
  fi
}

# Sets `key` to the name of a package in the manifest: with its version, if there are lines for several. The argument is the id.
find_key() {
  key=${join_name[$1]}
  if [ -n "${several[$key]-}" ]; then key+=-${join_version[$1]//[.+]/-}; fi
}

# Adds a line to the document. The arguments are its table, the id of its package and the features.
add_line() {
  local key kind=null rename=null library=${code_name[$2]-${join_name[$2]}} code features=${3# } mark place
  find_key "$2"
  [ -z "${own_keys[$1 $key]-}" ] || fail "\`$key\` is in [$1] of \`${member[manifest]}\` outside of the marks: remove it there, or name another member"
  if [ "$1" = build-dependencies ]; then kind='"build"'; fi
  library=${library//-/_} code=$library
  if [ "$key" != "${join_name[$2]}" ]; then rename=\"$key\" code=${key//-/_}; fi
  declarations+=",{\"name\":\"${join_name[$2]}\",\"source\":\"$CRATES_IO\",\"req\":\"=${join_version[$2]}\",\"kind\":$kind,\"rename\":$rename,\"optional\":false,"
  declarations+="\"uses_default_features\":false,\"features\":[${features:+\"${features// /\",\"}\"}],\"target\":null,\"registry\":null}"
  mark="\",\"pkg\":\"$2\",\"dep_kinds\":["
  for place in "${!used_now[@]}"; do
    if [[ ${used_now[place]} = '{"name":"'*"$mark"* ]]; then
      check_name "$2" "$key" "${used_now[place]%%"$mark"*}" "$library"
      used_now[place]="{\"name\":\"$code$mark{\"kind\":$kind,\"target\":null},${used_now[place]#*"$mark"}"
      return
    fi
  done
  uses+=",{\"name\":\"$code$mark{\"kind\":$kind,\"target\":null}]}"
}

# Ends if the manifest has another name for the package of a line. The arguments are its id, its name in the line, the begin of the document's line
# with its name in code, and that of its library.
check_name() {
  local code=${3#'{"name":"'} own
  own=${own_names[${join_name[$1]} $code]-}
  if [ -z "$own" ] && [ "$code" = "$4" ]; then own=${own_names[${join_name[$1]} -]-}; fi
  [ -z "$own" ] || [ "$own" = "$2" ] ||
    fail "\`$own\` of \`${member[manifest]}\` is the package of the line \`$2\`, and Cargo accepts one name for a package: remove it there, or name another member"
}

# Adds features to a line, which may be a new one. The arguments are its table, the id of the package, and the features.
extend_line() {
  local place="$1 $2" feature all
  all=${joined[$place]-}
  for feature in "${@:3}"; do
    if [[ "$all " != *" $feature "* ]]; then all+=" $feature"; fi
  done
  [ "${joined[$place]-new}" != "$all" ] || return 0
  has_more=yes
  joined[$place]=$all
}

# Sets a variable to a text of an object, which has no escapes. The arguments are the name of both and the object.
read_member() {
  [[ $2 =~ [\{,]\"$1\":\"([^\"\\]*)\" ]] || fail "feats has no \`$1\` in its answer"
  printf -v "$1" %s "${BASH_REMATCH[1]}"
}

# Adds a line of the answer to `joined`. Cargo builds build-dependencies for a build script alone. The argument is its object.
read_join() {
  local package name version place table=dependencies
  read_member place "$1"
  if [ "$place" = host ]; then table=build-dependencies; fi
  if [ "$table" = build-dependencies ] && [ -z "${member[script]}" ]; then
    without_effect=yes
    return
  fi
  read_member package "$1"
  read_member name "$1"
  read_member version "$1"
  [[ $1 =~ \"features\":\[([^]\\]*)\] ]] || fail "feats has no \`features\` in its answer"
  join_name[$package]=$name join_version[$package]=$version
  place=${BASH_REMATCH[1]//\"/}
  extend_line "$table" "$package" ${place//,/ }
}

# Adds the lines of the answer of feats to `joined`, and notes what it says of packages and members.
read_answer() {
  local LC_ALL=C line name version
  has_more='' without_effect='' differing=() unplanned=()
  while IFS= read -r line; do
    case $line in
      *'"kind":"join"'*) read_join "$line" ;;
      *'"kind":"alone"'* | *'"kind":"refused"'*)
        read_member name "$line"
        read_member version "$line"
        if [[ $line = *'"kind":"alone"'* ]]; then differing["$name $version"]=yes; else unplanned[$name]=yes; fi
        ;;
    esac
  done <"$room/answer"
}

# Sets `several` to the names of which there are lines for several packages.
find_several() {
  local id
  local -A seen=()
  several=()
  for id in "${!join_name[@]}"; do
    [ -z "${seen[${join_name[$id]}]-}" ] || several[${join_name[$id]}]=yes
    seen[${join_name[$id]}]=yes
  done
}

# Sets `joined` to the lines that the members need. Returns whether feats has answered.
find_joins() {
  joined=() join_name=() join_version=() has_more=yes
  split_document
  while [ -n "$has_more" ]; do
    find_several
    join_document
    check_kept
    run_feats "$room/joined"
    [ "$status" -lt 2 ] || return
    read_answer
  done
  make_lines
}

# Sets `new_lines` to the lines of `joined`.
make_lines() {
  local LC_ALL=C place table key line features
  new_lines=([dependencies]='' [build-dependencies]='')
  for place in "${!joined[@]}"; do
    find_key "${place#* }"
    line="$key = { "
    if [ "$key" != "${join_name[${place#* }]}" ]; then line+="package = \"${join_name[${place#* }]}\", "; fi
    features=$(printf ', "%s"' $(printf '%s\n' ${joined[$place]} | LC_ALL=C sort))
    if [ -z "${joined[$place]}" ]; then features=''; fi
    new_lines[${place%% *}]+="${line}version = \"=${join_version[${place#* }]}\", default-features = false, features = [${features#, }] }"$'\n'
  done
  for table in "${!new_lines[@]}"; do
    line=$(printf %s "${new_lines[$table]}" | LC_ALL=C sort)
    new_lines[$table]=${line:+$line$'\n'}
  done
}

# Looks for the lines, over another document if the selection turns on what the first one lacks. Ends after a fault of feats.
ask_joins() {
  find_joins || { documents_anew && find_joins; } || true
  say_faults
  [ "$status" -lt 2 ] || exit "$status"
}

# Prints texts in the order of their bytes, with commas between them.
listed() {
  local texts
  mapfile -t texts < <(printf '%s\n' "$@" | LC_ALL=C sort)
  printf -v texts ', %s' "${texts[@]}"
  printf '%s\n' "${texts#, }"
}

# Says what the lines don't do.
say_joins() {
  [ -z "$without_effect" ] ||
    say "lines for [build-dependencies] are left out, because \`${member[name]}\` has no build script: Cargo builds them for a build script alone"
  [ ${#unplanned[@]} -eq 0 ] || say "these members have no plan alone, so the lines aren't for them: $(listed "${!unplanned[@]}")"
  [ ${#differing[@]} -eq 0 ] ||
    say "also with the lines members build these with different features: $(listed "${!differing[@]}"): does each member depend on \`${member[name]}\`?"
}

# Makes the document anew with the lines in the manifest, and looks for the lines again. Until it is done the manifest is only tried.
look_again() {
  if ! document --all-features >"$room/document"; then
    say "cargo refuses the lines in \`${member[manifest]}\`"
    cargo_failed
  fi
  read_manifest
  ask_joins
  has_replaced=''
  if ! is_current; then
    say "the lines are others once they are in the manifest: write them again"
    status=1
  fi
}

# Answers --write and --verify, and sets `status`.
answer_joins() {
  local changes result=current
  find_member
  read_manifest
  ask_joins
  find_changes
  if ! is_current && [ "$joins" = --verify ]; then
    result='not current' status=1
  elif ! is_current; then
    result=written
    try_manifest
    look_again
  fi
  answered=yes
  say_joins
  write_by printf '%s%s: %s\n' "$changes" "${member[manifest]}" "$result"
}
