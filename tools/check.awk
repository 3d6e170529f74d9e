# The lines of an accepted check, in the part `run`, each draw followed by its symbol's name where the part `names` has one.
$1 == "part" { part = $2; next }
part == "names" { nameOf[$1] = substr($0, index($0, "\t") + 1); next }
part == "run" { print $0 ($1 != "accepted" && $2 in nameOf ? " " nameOf[$2] : "") }
