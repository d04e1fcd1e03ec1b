/* Adds numbers by recursion and shows the sum: the C program in ROM on which the debuggers are tested. */
char text[] = "SUM ";
int total;

int sum(n) int n;
{
    if (n == 0)
        return 0;
    return n + sum(n - 1);
}

int main()
{
    int i;
    for (i = 0; text[i]; i++)
        show(i, text[i]);
    total = sum(10);
    show(4, '0' + total / 10);
    show(5, '0' + total - total / 10 * 10);
    return total;
}
