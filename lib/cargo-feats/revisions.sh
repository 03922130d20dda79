# Revisions of git for `diff`: their files and documents. Part of cargo-feats.

# The two revisions that `diff` compares, the old one first: their words, their commits, and the places in `for_feats` of the paths of their root
# manifests. The commit of the working tree is empty. `git_folder` is the repository's git folder, `repository` its top folder, and `manifest` the
# path of the manifest below that.
revisions=() commits=() manifest_places=() git_folder='' repository='' manifest=''
# The names of the folders and of the files of the two.
SIDES=(old new)

# Returns whether a word of `diff` is a document: a file, a pipe, or `-` for standard input.
is_document() {
  [ "$1" = - ] || { [ -e "$1" ] && [ ! -d "$1" ]; }
}

# Runs git on the repository, wherever it is.
in_git() {
  git --git-dir="$git_folder" "$@"
}

# Sets `manifest` to the path of the manifest: that of --manifest-path, or else the nearest one. Sets `folder` to its folder, or to the nearest
# folder above it that exists, because the manifest of a revision needn't exist in the working tree.
find_manifest() {
  local number nearest
  folder=$(pwd -P)
  for number in "${!for_cargo[@]}"; do
    if [ "${for_cargo[number]}" = --manifest-path ]; then manifest=${for_cargo[number + 1]}; fi
  done
  if [ -n "$manifest" ]; then
    if [[ $manifest = */* ]]; then folder=$(readlink -m -- "${manifest%/*}/"); fi
    manifest=${folder%/}/${manifest##*/}
    until [ -d "$folder/" ]; do folder=${folder%/*}; done
    return
  fi
  manifest=${folder%/}/Cargo.toml
  nearest=$folder
  until [ -z "$nearest" ] || [ -e "$nearest/Cargo.toml" ]; do nearest=${nearest%/*}; done
  if [ -e "$nearest/Cargo.toml" ]; then manifest=$nearest/Cargo.toml; fi
}

# Sets `repository` to the top folder of the repository with the manifest, `git_folder` to its git folder, and `manifest` to its path below
# `repository`. Returns whether there is a repository. If not, the file `said` has the reason.
find_repository() {
  local folder
  # (a hook of git may set GIT_DIR alone; git would then take the current folder for the top folder)
  if [ -z "${GIT_WORK_TREE-}" ]; then unset GIT_DIR; fi
  find_manifest
  repository=$(git -C "$folder/" rev-parse --show-toplevel 2>"$room/said") || return
  git_folder=$(git -C "$folder/" rev-parse --absolute-git-dir 2>"$room/said") || return
  # (these belong to this repository, and submodules have others)
  unset GIT_DIR GIT_WORK_TREE GIT_COMMON_DIR GIT_INDEX_FILE GIT_PREFIX
  repository=${repository%/}
  if [[ $manifest != "$repository"/* ]]; then
    echo "the manifest \`$manifest\` isn't in the repository \`$repository\`" >"$room/said"
    return 1
  fi
  manifest=${manifest#"$repository"/}
}

# Prints the commit of a revision.
commit_of() {
  in_git rev-parse --verify --quiet "$1^{commit}" 2>/dev/null
}

# Sets `commits` to the commits of `revisions`. The argument is the text of the words that contain them.
find_commits() {
  local side named
  for side in "${!revisions[@]}"; do
    named=${revisions[side]}
    commits[side]=$(commit_of "$named") && continue
    fail "no revision or file named \`$named\`$([ "$named" = "$1" ] || printf ' of `%s`' "$1"): \`git log --oneline --all\` shows revisions"
  done
}

# Sets `revisions` and `commits` by a single word of `diff`.
read_revisions() {
  case $1 in
    *...*) revisions=("${1%%...*}" "${1#*...}") ;;
    *..*) revisions=("${1%%..*}" "${1#*..}") ;;
    *)
      revisions=("$1")
      find_commits "$1"
      revisions+=('') commits+=('')
      return
      ;;
  esac
  revisions=("${revisions[0]:-HEAD}" "${revisions[1]:-HEAD}")
  find_commits "$1"
  if [[ $1 = *...* ]]; then
    commits[0]=$(in_git merge-base "${commits[@]}") || fail "the revisions of \`$1\` have no common commit: write \`..\` in place of \`...\`"
    revisions[0]=${commits[0]:0:12}
  fi
}

# Sets `revisions` and `commits` if the words of `diff` are revisions. Then the paths of two documents replace the words; `make_documents` writes
# the documents.
find_revisions() {
  local place word words=()
  names_documents || return 0
  for place in "${word_places[@]}"; do words+=("${for_feats[place]}"); done
  for word in "${words[@]}"; do
    if is_document "$word"; then return 0; fi
  done
  case ${#words[@]} in
    1)
      type -P git >/dev/null || fail "no file named \`${words[0]}\`, and no \`git\` in PATH for a revision"
      find_repository || fail "no file named \`${words[0]}\`, and no repository for a revision: $(head -n 1 -- "$room/said")"
      read_revisions "${words[0]}"
      ;;
    2)
      # (if neither is a revision, they are documents that don't exist)
      find_repository && { commit_of "${words[0]}" || commit_of "${words[1]}"; } >/dev/null || return 0
      revisions=("${words[@]}")
      find_commits "${words[*]}"
      ;;
    *) return 0 ;;
  esac
  # (git and cargo run in other folders)
  if [[ $room != /* ]]; then room=$PWD/$room; fi
  place=${word_places[0]}
  for word in "${word_places[@]:1}"; do unset "for_feats[word]"; done
  for_feats=("${for_feats[@]:0:place}" "$room/old.json" "$room/new.json" "${for_feats[@]:place+1}")
  add_manifests
}

# Appends words for the root manifests of the revisions to `for_feats`, unless other words name the resolver. `make_documents` sets their paths.
add_manifests() {
  local word words=(--old-manifest --manifest) side
  for word in "${for_feats[@]}"; do
    case $word in
      --resolver | --resolver=*) words=() ;;
      --old-manifest | --old-manifest=*) unset 'words[0]' ;;
      --manifest | --manifest=*) unset 'words[1]' ;;
    esac
  done
  for side in "${!words[@]}"; do
    for_feats+=("${words[side]}" /dev/null)
    manifest_places[side]=$((${#for_feats[@]} - 1))
  done
  has_resolver[0]=yes
}

# Writes the files of a commit to a new folder, and those of each submodule whose commit exists. The arguments are the git folder, the top
# folder, the commit and the new folder. The index is a temporary file, and no hook runs: the repository stays as it is.
check_out() {
  local line path git_folder=$1
  mkdir -p -- "$4" || return
  GIT_INDEX_FILE=$room/index GIT_LFS_SKIP_SMUDGE=1 in_git --work-tree="$4" -c core.splitIndex=false -c core.fsmonitor=false -c core.hooksPath=/dev/null \
    read-tree -m -u --no-sparse-checkout "$3" || return
  rm -f -- "$room/index"
  while IFS= read -r -d '' line; do
    path=${line#*$'\t'}
    line=${line%%$'\t'*}
    line=${line##* }
    # (without the submodule's folder git fails; without the submodule in it git finds the repository, which lacks the commit)
    git_folder=$(git -C "$2/$path" rev-parse --absolute-git-dir 2>/dev/null) || continue
    if in_git cat-file -e "$line^{commit}" 2>/dev/null; then check_out "$git_folder" "$2/$path" "$line" "$4/$path" || return; fi
  done < <(git --git-dir="$1" ls-tree -r -z --full-tree "$3" | grep -z '^160000 ')
}

# Prints the folder of a revision's files. The argument is the number of the revision, 0 or 1. The folder has the repository's name, because
# cargo's ids depend on it.
tree_of() {
  printf '%s' "$room/${SIDES[$1]}/${repository##*/}"
}

# Runs a command for a revision or for the working tree, with its manifest. The command runs in the folder of its files that corresponds to the
# current folder, or in the nearest one above that exists. The arguments are the number of the revision and the command.
at_revision() {
  local here=$PWD folder ended=0 number tree given=("${for_cargo[@]}") for_cargo=("${for_cargo[@]}") for_each=("${for_each[@]}")
  tree=$(tree_of "$1")
  if [ -n "${commits[$1]}" ]; then
    for_cargo=()
    for ((number = 0; number < ${#given[@]}; number++)); do
      if [ "${given[number]}" = --manifest-path ]; then number=$((number + 1)); else for_cargo+=("${given[number]}"); fi
    done
    for_cargo+=(--manifest-path "$tree/$manifest")
    for number in "${!for_each[@]}"; do
      # (the path of a file of configuration is relative to the current folder)
      if [[ ${for_each[number]} = [!/]* && ${for_each[number - 1]} = --config && -f ${for_each[number]} ]]; then for_each[number]=$here/${for_each[number]}; fi
    done
    folder=$(pwd -P)/
    if [[ $folder = "$repository"/* ]]; then
      folder=$tree/${folder#"$repository"/}
      until [ -d "$folder" ]; do folder=${folder%/*}; done
      cd -- "$folder"
    fi
  fi
  shift
  "$@" || ended=$?
  cd -- "$here"
  return "$ended"
}

# Writes the files of a revision to its folder. The argument is its number.
make_tree() {
  local tree
  tree=$(tree_of "$1")
  check_out "$git_folder" "$repository" "${commits[$1]}" "$tree" || fail "\`git\` can't write the files of the revision \`${revisions[$1]}\`: see above"
  [ -e "$tree/$manifest" ] || fail "the revision \`${revisions[$1]}\` has no \`$manifest\`: \`git log --all -- :/$manifest\` shows revisions that have it"
}

# Finds the root manifest of a revision, and sets the word for it. A revision without a Cargo.lock gets that of the working tree, because cargo
# would choose the newest versions. The argument is the number of the revision.
find_root() {
  local path tree
  locate || return
  path=$(<"$room/located")
  if [ -n "${manifest_places[$1]-}" ]; then for_feats[manifest_places[$1]]=$path; fi
  tree=$(tree_of "$1")
  path=${path%/*}/Cargo.lock
  if [[ $path = "$tree"/* && ! -e $path && -f $repository/${path#"$tree"/} ]]; then cp -- "$repository/${path#"$tree"/}" "$path"; fi
}

# Prints the URL of a path as cargo does.
url_of() {
  local LC_ALL=C letter code place
  for ((place = 0; place < ${#1}; place++)); do
    letter=${1:place:1}
    case $letter in
      [\"\<\>\`\#\?{}%\\] | [!!-~])
        printf -v code %d "'$letter"
        printf '%%%02X' $((code & 255))
        ;;
      *) printf %s "$letter" ;;
    esac
  done
}

# Keeps the document that was made for a revision, with the ids that the packages would have in the repository's folder. The argument is the
# number of the revision.
keep_document() {
  local url name=${room##*/} sign
  if [ -z "${commits[$1]}" ]; then
    mv -- "$room/document" "$room/${SIDES[$1]}.json"
    return
  fi
  url=$(url_of "${repository%/*}")
  for sign in '&' '|'; do url=${url//"$sign"/"\\$sign"}; done
  LC_ALL=C sed "s|path+file://[^\"#]*/${name//./\\.}/${SIDES[$1]}/|path+file://$url/|g" <"$room/document" >"$room/${SIDES[$1]}.json"
}

# Makes the documents of both revisions. Cargo's warnings are those of the new one.
make_documents() {
  local side
  for side in 1 0; do
    [ -z "${commits[side]}" ] || make_tree "$side"
    if ! at_revision "$side" find_root "$side" || ! at_revision "$side" document --all-features >"$room/document"; then
      [ -z "${commits[side]}" ] || say "cargo refuses the revision \`${revisions[side]}\`: \`git worktree add FOLDER ${commits[side]:0:12}\` shows its files"
      cargo_failed
    fi
    keep_document "$side"
  done
}

# Makes the document, or those of revisions, anew with the features of the selection. Returns whether one was made.
documents_anew() {
  local side ended=1
  if [ ${#revisions[@]} -eq 0 ]; then
    ! names_documents && document_anew
    return
  fi
  for side in 1 0; do
    if at_revision "$side" document_anew; then
      keep_document "$side"
      ended=0
    fi
  done
  return "$ended"
}

# Adds to `faults` in which revision the fault of feats is. It is the old one if comparing the old document with itself is a fault, too, because
# feats reads the old document first.
name_revision() {
  local said=$faults side=1 place
  for place in "${!words[@]}"; do words[place]=${words[place]/#"$room/new"/"$room/old"}; done
  run_feats ''
  if [ "$status" -eq 2 ]; then side=0; fi
  : >"$room/answer"
  status=2
  faults=$said$'\n'"cargo-feats: the fault is in the revision \`${revisions[side]}\`"
  if [ -z "${commits[side]}" ]; then faults=$said$'\n'"cargo-feats: the fault is in the working tree"; fi
  for side in 0 1; do
    faults=${faults//"$(tree_of "$side")/"/"${revisions[side]}:"}
    faults=${faults//"$room/${SIDES[side]}.json"/"the document of ${revisions[side]:-the working tree}"}
  done
}

# Makes the documents of revisions. For two other documents it looks whether there is a workspace. Without one, cargo's message is shown, and words
# must name the resolver.
prepare_documents() {
  need cargo CARGO "$cargo"
  if [ ${#revisions[@]} -gt 0 ]; then
    make_documents
  elif [ -z "${has_resolver[0]-}" ] && ! locate; then
    has_resolver[0]=yes
  fi
}
