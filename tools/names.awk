# Reads names of symbols, a line each: the number, blanks, the name. Other lines are remarks. Prints the number, a tab and the name;
# status 1 where there is none.
{ gsub(/[\r\t]/, " ") }
$1 ~ /^[0-9]+$/ && $1 + 0 <= 65534 && NF > 1 {
    number = $1 + 0
    sub(/^ *[0-9]+ +/, "")
    sub(/ +$/, "")
    print number "\t" clean($0)
    found = 1
}
END { exit !found }
