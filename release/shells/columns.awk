# Prints the names in the header of a CSV file, one a line; names with line ends are left out.
{
    sub(/\r$/, "")
    header = header == "" ? $0 : header "\n" $0
    rest = header
    if (header != "" && gsub(/"/, "", rest) % 2 == 0 || length(header) > 100000) exit
}
END {
    sub(/^\357\273\277/, "", header)
    while (header != "") {
        if (match(header, /^"([^"]|"")*"/)) {
            name = substr(header, 2, RLENGTH - 2)
            gsub(/""/, "\"", name)
        } else {
            match(header, /^[^,]*/)
            name = substr(header, 1, RLENGTH)
        }
        header = substr(header, RLENGTH + 2)
        if (name != "" && name !~ /\n/) print name
    }
}
