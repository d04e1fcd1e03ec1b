/* What start.s has for C. */
void set_vector(int number, void (*handler)());
void out(int port, int value);
int in(int port);
void put(int place, int sign);
void wait(void);
void on_tick(void); /* the handler that calls tick() */
void on_key(void);  /* the handler that calls key() */
