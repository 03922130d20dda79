# Prints the warnings about members of the workspace, and then the others, each in its order. The first file has the rows, and the
# second the warnings.
BEGIN { FS = "\t" }
FILENAME == ARGV[1] {
  if ($1 == "package" && $3 == "workspace") members[$2]
  next
}
$2 in members { print; next }
{ others[++count] = $0 }
END { for (k = 1; k <= count; k++) print others[k] }
