# Draws the pattern of each line of a dictionary: X is the player to move, O the other one, # off the board, * the point itself. A
# header has none, and stays as it is.
/^shapes / { print; next }
length($1) != 13 || $1 ~ /[^0-9a-f]/ { print "show: no word of 13 digits: " $1 >"/dev/stderr"; wrong = 1; next }
{
    cells = ""
    for (i = 13; i > 0; i--) {
        digit = index("0123456789abcdef", substr($1, i, 1)) - 1
        cells = cells substr(".XO#", digit % 4 + 1, 1) substr(".XO#", int(digit / 4) % 4 + 1, 1)
    }
    cells = substr(cells, 1, 12) "*" substr(cells, 14, 12)
    rows = split($1 < "4" ? "5 5 5 5 5" : "1 3 5 7 5 3 1", width, " ")
    print
    from = 1
    for (row = 1; row <= rows; row++) {
        printf "%*s%s\n", $1 < "4" ? 4 : 7 - int(width[row] / 2), "", substr(cells, from, width[row])
        from += width[row]
    }
}
END { exit wrong }
