# Read by the scripts beside it: lattices as the text of a .lat file, of a made model and of a few plain rows.

# The lattice of the model of two or three sizes, as 6x6 or 3x3x4 (no interaction of all): a move for each two neighbours in every
# direction, with the sign of the number of second neighbours.
lattice() {
    echo "$1" | awk -Fx '{
        for (k = 1; k <= NF; k++) size[k] = $k
        if (NF == 2) size[3] = 0
        cells = size[1] * size[2] * (NF == 3 ? size[3] : 1)
        last = NF == 3 ? size[3] - 1 : 1
        print (size[1] - 1) * (size[2] - 1) * last, cells
        for (a = 0; a < size[1] - 1; a++) for (b = 0; b < size[2] - 1; b++) for (c = 0; c < last; c++) {
            for (k = 0; k < cells; k++) entry[k] = 0
            for (x = 0; x < 2; x++) for (y = 0; y < 2; y++) for (z = 0; z < (NF == 3 ? 2 : 1); z++) {
                place = (a + x) * size[2] + b + y
                if (NF == 3) place = place * size[3] + c + z
                entry[place] = (x + y + z) % 2 ? -1 : 1
            }
            for (k = 0; k < cells; k++) printf "%s%d", k ? " " : "", entry[k]
            print ""
        }
    }'
}

# So many rows of so many columns: 1 and -1 by turns in the first, two of each by turns in the second, four of each in the third. Each row
# has sum 0 where twice its turn divides the number of columns.
plain_rows() {
    awk -v rows="$1" -v columns="$2" 'BEGIN {
        print rows, columns
        for (r = 0; r < rows; r++) {
            turn = 2 ^ r
            for (c = 0; c < columns; c++) printf "%s%d", c ? " " : "", int(c / turn) % 2 ? -1 : 1
            print ""
        }
    }'
}
