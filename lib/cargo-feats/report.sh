# The pages of `report` and of `diff --report`. Part of cargo-feats.

# Whether the words have -o, and its file; whether they have --report; and the format that they name.
has_output='' output='' has_report='' format=text
# The words of the command line as they are, and the platforms of each build as HTML.
typed=() built_for=()

# Returns whether the answer of feats is the data of a page.
makes_page() {
  [ "$command" = report ] || { [ "$command" = diff ] && [ -n "$has_report" ]; }
}

# Ends because the file can't be written. The argument is the reason, if it is known.
cannot_write() {
  fail "cannot write \`$output\`${1:+: $1}"
}

# Ends if -o names a file that can't be written, or if the command writes no page.
check_output() {
  local folder=.
  [ -n "$has_output" ] || return 0
  makes_page || fail "only \`report\` and \`diff --report\` have the option \`-o\`: write \`>FILE\` for another answer"
  [ "$output" != - ] || return 0
  if [[ $output = */* ]]; then folder=${output%/*}/; fi
  [ -n "$output" ] || cannot_write "write the name of a file after \`-o\`"
  [ ! -d "$output" ] || cannot_write "it is a folder"
  [ -d "$folder" ] || cannot_write "there is no folder \`$folder\`"
}

# Sets `output` to the page's file in the target directory, and makes its folder. In a document the target directory is after the packages and
# before the workspace's metadata. Packages and metadata may have this key too, but other keys follow it there.
find_output() {
  local line name=report string='"([^"\\]|\\.)*"'
  if [ "$command" = diff ]; then name=diff; fi
  if names_documents && ! document --no-deps >"$room/document"; then fail "there is no workspace for the page: write \`-o FILE\`"; fi
  line=$(LC_ALL=C sed 's/"target_directory":"/\n&/g' "$room/document" |
    LC_ALL=C grep -aoE "^\"target_directory\":$string,(\"build_directory\":$string,)?\"version\":1,\"workspace_root\":$string,\"metadata\":" | tail -n 1)
  line=${line#*:\"}
  line=${line%%\",\"build_directory\":*}
  line=${line%%\",\"version\":1,*}
  [ -n "$line" ] || fail "\`$cargo metadata\` names no target directory for the page: write \`-o FILE\`"
  # (as in `gather_manifests`)
  printf -v output '%b' "${line//\\\"/\\x22}/cargo-feats/$name.html"
  mkdir -p -- "${output%/*}" 2>/dev/null || cannot_write "its folder can't be made"
}

# Appends a text to `line` as HTML. The element `bdi` keeps the direction of the text to itself.
add_text() {
  local text=$1
  # (in quotes `&` doesn't stand for what is replaced)
  text=${text//&/"&amp;"}
  text=${text//</"&lt;"}
  text=${text//>/"&gt;"}
  line+="<bdi>$text</bdi>"
}

# Appends a word to `line`, with the quotes that it needs in a shell.
add_word() {
  local word=$1 quote="'\\''"
  case $word in
    *[[:cntrl:]]*) printf -v word %q "$word" ;;
    '' | *[!a-zA-Z0-9_@%+=:,./-]*)
      word=${word//\'/"$quote"}
      word="'$word'"
      ;;
  esac
  add_text "$word"
}

# Adds the host and the targets in `platforms`, those of a build, to `built_for`.
note_platforms() {
  local LC_ALL=C line='' number count=$((${#platforms[@]} / 2 - 1))
  case $count in
    0) line='target and ' ;;
    1) line='target: ' ;;
    *) line='targets: ' ;;
  esac
  # (`platforms` has the host first, and each triple with the file of its cfg text)
  for ((number = 3; number < ${#platforms[@]}; number += 2)); do
    add_text "${platforms[number]%%=*}"
    line+=', '
  done
  line+='host: '
  add_text "${platforms[1]%%=*}"
  built_for+=("$line")
}

# Sets `line` to the paragraph of the page with the command and its platforms. Bytes are replaced, in any locale. The value of --config may be a
# secret, as that of `registry.token`, so it is left out.
find_line() {
  local LC_ALL=C word last=''
  line='<p id="words" class="muted"><code>cargo feats'
  for word in "${typed[@]}"; do
    if [[ $last = --config && $word = *=* ]]; then word=${word%%=*}=...; fi
    if [[ $word = --config=*=* ]]; then
      word=${word#*=}
      word=--config=${word%%=*}=...
    fi
    line+=' '
    add_word "$word"
    last=$word
  done
  line+='</code>'
  if [ ${#built_for[@]} -eq 2 ] && [ "${built_for[0]}" != "${built_for[1]}" ]; then
    built_for=("old build, ${built_for[0]}" "new build, ${built_for[1]}")
  else
    built_for=("${built_for[0]}")
  fi
  for word in "${built_for[@]}"; do line+=" &middot; $word"; done
  line+='</p>'
}

# Prints the page: the template, with `line` in place of the comment `WORDS`, and the data in place of the line `DATA`.
print_page() {
  local page=$parts/report.html words='^<!-- WORDS -->$'
  sed "/$words/,\$d" "$page" && printf '%s\n' "$line" && sed "1,/$words/d; /^DATA\$/,\$d" "$page" &&
    cat -- "$room/answer" && sed '1,/^DATA$/d' "$page"
}

# Writes the output of a command to the file `output`, by a new file beside it that then replaces it. A pipe or a device is written to directly.
write_output() {
  local file=$output
  if [ -L "$file" ]; then file=$(readlink -f -- "$file") || cannot_write; fi
  if [ -e "$file" ] && [ ! -f "$file" ]; then
    { "$@" >"$file"; } 2>/dev/null || cannot_write
    return
  fi
  unfinished=$(mktemp -- "$file.XXXXXX" 2>/dev/null) || cannot_write
  # (mktemp makes a file that only the user can read)
  chmod =rw -- "$unfinished" && "$@" 2>/dev/null >"$unfinished" && mv -fT -- "$unfinished" "$file" 2>/dev/null || cannot_write
  unfinished=''
}

# Writes the page or, with --format json, its data. Without a file the data goes to standard output, and the page to the target directory.
write_page() {
  local write=(print_page) line
  if [ "$format" = json ]; then write=(cat -- "$room/answer"); else find_line; fi
  if [ "$output" = - ] || { [ -z "$has_output" ] && [ "$format" = json ]; }; then
    write_by "${write[@]}"
  elif [ -n "$has_output" ]; then
    write_output "${write[@]}"
  else
    find_output
    write_output "${write[@]}"
    write_by printf '%s\n' "$output"
  fi
}
