/* Words of a text, counted and sorted. */
char text[] = "the quick brown fox jumps over the lazy dog and the cat";
char *words[20];
int compare(a, b) char **a; char **b; { return strcmp(*a, *b); }
main() {
    int count = 0, i;
    char *p = text;
    while (*p) {
        words[count++] = p;
        while (*p && *p != ' ') p++;
        if (*p) *p++ = 0;
    }
    for (i = 1; i < count; i++) {
        char *w = words[i];
        int j = i;
        while (j > 0 && compare(&words[j - 1], &w) > 0) { words[j] = words[j - 1]; j--; }
        words[j] = w;
    }
    for (i = 0; i < count; i++) printf("%d %s\n", i + 1, words[i]);
    return 0;
}
