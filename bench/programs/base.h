/* What start.s has for C. */
void out(int port, int value);
void put(int place, int character);
