/* The game of life, five generations of a glider. */
char now[8][16], then[8][16], row[17];
int around(y, x) int y; int x; {
    int i, j, n = 0;
    for (i = 7; i <= 9; i++)
        for (j = 15; j <= 17; j++)
            if (i != 8 || j != 16) n += now[(y + i) % 8][(x + j) % 16];
    return n;
}
main() {
    int g, y, x;
    now[0][1] = now[1][2] = now[2][0] = now[2][1] = now[2][2] = 1;
    for (g = 0; g < 5; g++) {
        for (y = 0; y < 8; y++) {
            for (x = 0; x < 16; x++) row[x] = now[y][x] ? '#' : '.';
            printf("%s\n", row);
        }
        for (y = 0; y < 8; y++)
            for (x = 0; x < 16; x++) { int n = around(y, x); then[y][x] = n == 3 || n == 2 && now[y][x]; }
        for (y = 0; y < 8; y++)
            for (x = 0; x < 16; x++) now[y][x] = then[y][x];
        printf("generation %d\n", g + 1);
    }
    return 0;
}
