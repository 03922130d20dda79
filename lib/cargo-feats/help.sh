# The pages of help, and the version. Part of cargo-feats.

usage() {
  sed -n '2,/^set /s/^# \{0,1\}//p' -- "$script"
}

# Writes the page of the command: that of feats, without the options and the files that this script adds, and the options for cargo.
page() {
  local said
  said=$("$top/feats" "$command" --help)
  said=$(sed -E "$no_added"'
    /^ +--(metadata|host|manifest|member-manifests) /d
    s/^( +--target <TRIPLE)=CFGFILE> .*/\1>          A platform for which to build, `host-tuple` for the host; without it those that cargo is set to/
    s/^( +--resolver .* or 3);.*/\1; without it that of the root manifest/
    s/, with the files of `feats plan --help`, and /, with /
    s/, with the files of `feats plan --help`//
    /^With the manifests/,/--member-manifests/d
    1s/^Prints the data of the page that `cargo feats report` writes, as JSON$/Writes a page about the build, for a browser/
    s/^( +--report  +)Print the data of the page that .*/\1Write a page about what differs, for a browser/
    /^The data has the objects of /d
    /^No `<`, `>` or `&` is in it/d
    /^`--format text` and `--format json` print the same/d
    s/^(  feats report .*) >server\.json$/\1 -o server.html/
    /^  (cargo metadata|rustc) /d
    /^  feats /{ s//  cargo feats /; s/ --(metadata|host|manifest) [^ ]+//g; }' <<<"$said")
  case $command in
    duplicates) said+=$'\n\n'$(usage | sed -n '/^Options of `duplicates/,/^$/p') ;;
    report | diff) said+=$'\n\n'$(usage | sed -n '/^Options of `report`/,/^$/p') ;;
  esac
  if [ "$command" = diff ]; then said+=$'\n\n'$(usage | sed -n '/^Revisions for/,/^$/p'); fi
  write_by printf '%s\n\n%s\n' "$said" "$(usage | sed -n '/^Options for cargo/,/^$/p')"
}

# Writes the version of feats as that of this script.
version() {
  local said
  said=$("$top/feats" --version)
  said=${said%%$'\n'*}
  write_by printf 'cargo-feats %s\n' "${said#* }"
}
