/* Six queens on a board of six rows, by recursion. */
int at[6], found;
int fits(row, column) int row; int column; {
    int i;
    for (i = 0; i < row; i++)
        if (at[i] == column || at[i] - column == row - i || column - at[i] == row - i) return 0;
    return 1;
}
int place(row) int row; {
    int i;
    if (row == 6) {
        found++;
        for (i = 0; i < 6; i++) printf("%d ", at[i] + 1);
        printf("\n");
        return 0;
    }
    for (i = 0; i < 6; i++)
        if (fits(row, i)) { at[row] = i; place(row + 1); }
    return 0;
}
main() { place(0); printf("%d ways\n", found); return 0; }
