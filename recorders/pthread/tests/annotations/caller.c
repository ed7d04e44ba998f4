/* Calls what a library has. */
int run(void);

int main(void) { return run(); }
