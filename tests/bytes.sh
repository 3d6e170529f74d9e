# For the test scripts to read in: bytes to and from rows of hexadecimal digits, `-` for none.

# Writes the bytes that a row of digits names.
bytes() { # HEX
    [ "$1" != - ] || return 0
    printf "$(printf '%s' "$1" | awk '
        function digit(place) { return index("0123456789abcdef", substr($0, place, 1)) - 1 }
        { for (i = 1; i < length($0); i += 2) printf "\\%03o", digit(i) * 16 + digit(i + 1) }')"
}

# Writes the row of digits that names a file's bytes.
hex() { # FILE
    if [ -s "$1" ]; then od -An -v -tx1 "$1" | tr -d ' \n'; else printf -- -; fi
}
