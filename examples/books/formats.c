/* printf and sprintf in all their forms. */
main() {
    char line[80];
    int i;
    printf("%d %u %x %o %c %s|%5d|%-5d|%05d\n", -8086, 40000, 0xBEEF, 8, 'A', "text", 42, 42, 42);
    for (i = 0; i < 30; i++) {
        sprintf(line, "%3d squared is %6d, and as a long %ld", i, i * i, (long)i * 100000L);
        puts(line);
    }
    return 3;
}
