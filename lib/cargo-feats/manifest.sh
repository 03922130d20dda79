# The manifest of the member for --write and --verify: its marks, and the lines between them. Part of cargo-feats.

# The tables that have lines, each between two marks.
TABLES=(dependencies build-dependencies)
# The lines of the manifest with their ends, its text, and the end of new lines. While these are tried, the text of before.
manifest_lines=() manifest_text='' line_end=$'\n' replaced_text=''
# By table: the numbers of the lines with the head and the marks, and the lines between the marks, each with a line feed.
declare -A head_at=() begin_at=() end_at=() kept_lines=()
# The names in these lines, with their table; the value is `found` if the document has the declaration.
declare -A kept_keys=()

# Prints a mark. The arguments are `begin` or `end`, and the table.
mark() {
  printf '# cargo-feats: %s of the join lines for [%s]\n' "$@"
}

# Ends because marks aren't as this script writes them. The arguments are the number of a line, and what is wrong there.
damaged() {
  fail "the marks of \`${member[manifest]}\` are damaged, because line $(($1 + 1)) $2: remove the marks and the lines between them, and write them anew"
}

# Reads the manifest, with its marks and the lines between them.
read_manifest() {
  local LC_ALL=C number line table='' open='' quotes=''
  line_end=$'\n' head_at=() begin_at=() end_at=() kept_lines=([dependencies]='' [build-dependencies]='') kept_keys=()
  mapfile manifest_lines 2>/dev/null <"${member[manifest]}" || fail "cannot read \`${member[manifest]}\`"
  printf -v manifest_text %s "${manifest_lines[@]}"
  if [[ ${manifest_lines[0]-} = *$'\r\n' ]]; then line_end=$'\r\n'; fi
  for number in "${!manifest_lines[@]}"; do
    line=${manifest_lines[number]%$'\n'}
    line=${line%$'\r'}
    if is_code "$line"; then read_line "$line"; fi
  done
  [ -z "$open" ] || damaged "${begin_at[$open]}" "is a begin without an end"
}

# Returns whether a line begins outside of the texts of several lines, and sets `quotes` to those that are open at its end.
is_code() {
  local rest=$1 was=$quotes double single
  while :; do
    if [ -n "$quotes" ]; then
      [[ $rest = *"$quotes"* ]] || break
      rest=${rest#*"$quotes"} quotes=''
    else
      double=${rest%%'"""'*} single=${rest%%"'''"*}
      [[ ! $rest =~ ^[[:space:]]*# && ($double != "$rest" || $single != "$rest") ]] || break
      quotes='"""'
      if [ ${#single} -lt ${#double} ]; then quotes="'''"; fi
      rest=${rest#*"$quotes"}
    fi
  done
  [ -z "$was" ]
}

# Reads a line that is a mark, the head of a table, or between marks.
read_line() {
  local text=${1#"${1%%[![:space:]]*}"} of
  text=${text%"${text##*[![:space:]]}"}
  if [[ $text = '# cargo-feats:'* ]]; then
    read_mark "$text"
  elif [[ $text = '['* ]]; then
    [ -z "$open" ] || damaged "$number" 'begins a table between them'
    table=''
    for of in "${TABLES[@]}"; do
      if [[ $text =~ ^\[[[:space:]]*${of}[[:space:]]*\][[:space:]]*(#.*)?$ ]]; then table=$of head_at[$of]=$number; fi
    done
  elif [ -n "$open" ]; then
    kept_lines[$open]+=$1$'\n'
    if [[ $text =~ ^[\"\']?([^][\"\'=.,#{}[:space:]]+)[\"\']?[[:space:]]*[=.] ]]; then kept_keys[$open ${BASH_REMATCH[1]}]=read; fi
  fi
}

# Reads a mark.
read_mark() {
  local of
  for of in "${TABLES[@]}"; do
    if [ "$1" = "$(mark begin "$of")" ]; then
      [ "$table" = "$of" ] || damaged "$number" "isn't in [$of]"
      [ -z "${begin_at[$of]-}" ] || damaged "$number" 'is a second begin'
      begin_at[$of]=$number open=$of
      return
    elif [ "$1" = "$(mark end "$of")" ]; then
      [ "$open" = "$of" ] || damaged "$number" 'is an end without a begin'
      end_at[$of]=$number open=''
      return
    fi
  done
  damaged "$number" 'is no mark of this version'
}

# Returns whether the lines between the marks are those of `new_lines`.
is_current() {
  local table
  for table in "${TABLES[@]}"; do
    [ "${kept_lines[$table]}" = "${new_lines[$table]}" ] || return
  done
}

# Ends if the document lacks a declaration that is between the marks: then cargo reads the manifest in another way.
check_kept() {
  local place
  for place in "${!kept_keys[@]}"; do
    [ "${kept_keys[$place]}" = found ] || fail "cargo finds no \`${place#* }\` in [${place%% *}] of \`${member[manifest]}\`, where the marks are"
  done
}

# Sets `changes` to the lines that come, each after `+`, and those that go, each after `-`.
find_changes() {
  local table
  changes=''
  for table in "${TABLES[@]}"; do
    add_changes "- [$table]" "${kept_lines[$table]}" "${new_lines[$table]}"
    add_changes "+ [$table]" "${new_lines[$table]}" "${kept_lines[$table]}"
  done
}

# Appends the lines of a text that another one lacks to `changes`. The arguments are what is before each, and the texts.
add_changes() {
  local line
  while IFS= read -r line; do
    [[ -z $line || $'\n'$3 = *$'\n'"$line"$'\n'* ]] || changes+="$1 $line"$'\n'
  done <<<"$2"
}

# Sets `text` to the manifest with the lines of `new_lines`. Without marks they are put after the head of their table, or with it at the end.
make_text() {
  local number table lines tail='' after=() dropped=()
  for table in "${TABLES[@]}"; do
    lines=${new_lines[$table]//$'\n'/"$line_end"}
    if [ -n "${begin_at[$table]-}" ]; then
      after[${begin_at[$table]}]=$lines
      for ((number = ${begin_at[$table]} + 1; number < ${end_at[$table]}; number++)); do dropped[number]=yes; done
    elif [ -n "$lines" ]; then
      lines=$(mark begin "$table")$line_end$lines$(mark end "$table")$line_end
      if [ -n "${head_at[$table]-}" ]; then after[${head_at[$table]}]=$lines; else tail+="${line_end}[$table]$line_end$lines"; fi
    fi
  done
  text=''
  for number in "${!manifest_lines[@]}"; do
    [ -z "${dropped[number]-}" ] || continue
    text+=${manifest_lines[number]}
    [ -z "${after[number]-}" ] || end_line
    text+=${after[number]-}
  done
  if [ -n "$tail" ]; then end_line; fi
  text+=$tail
}

# Ends the last line of `text`.
end_line() {
  if [[ $text != *$'\n' ]]; then text+=$line_end; fi
}

# Writes a text to the manifest, by a new file beside it that then replaces it. Returns whether it is written.
write_manifest() {
  local file
  file=$(readlink -f -- "${member[manifest]}") && [ -w "$file" ] && unfinished=$(mktemp -- "$file.XXXXXX" 2>/dev/null) || return
  # (the copy has the mode and the owner of the manifest)
  cp -p -- "$file" "$unfinished" 2>/dev/null && { printf %s "$1" >"$unfinished"; } 2>/dev/null && mv -fT -- "$unfinished" "$file" 2>/dev/null || return
  unfinished=''
}

# Writes the manifest with the new lines to try it. Ends if it isn't as it was read.
try_manifest() {
  local text lines
  make_text
  mapfile lines 2>/dev/null <"${member[manifest]}" && [ "${lines[*]}" = "${manifest_lines[*]}" ] || fail "\`${member[manifest]}\` has changed: write the lines again"
  replaced_text=$manifest_text has_replaced=yes
  if ! write_manifest "$text"; then
    has_replaced=''
    fail "cannot write \`${member[manifest]}\`"
  fi
}

# Writes the manifest as it was, if the new lines are still tried.
restore_manifest() {
  [ -n "$has_replaced" ] || return 0
  has_replaced=''
  [ -z "$unfinished" ] || rm -f -- "$unfinished"
  if write_manifest "$replaced_text"; then say "\`${member[manifest]}\` is as it was"; else say "cannot write \`${member[manifest]}\` as it was"; fi
}
