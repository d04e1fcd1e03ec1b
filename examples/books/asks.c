/* A number is read from what is typed, and its divisors are told. */
main() {
    char line[20];
    int n, i;
    printf("Number: ");
    line[read(0, line, 19)] = 0;
    n = atoi(line);
    for (i = 1; i <= n; i++)
        if (n % i == 0) printf("%d ", i);
    printf("\n");
    return n & 255;
}
