/* The first side module: it defines what the second one uses, and uses what that one defines. */
typedef int (*op)(int);
extern int b_counter;                 /* a datum of the other module: GOT.mem */
extern int b_twice(int);              /* a function of the other module: called and its address taken */
extern int host_log(int);             /* a function of the host */
__attribute__((weak)) extern int nobody(int);
__attribute__((weak)) extern int nothing;

static int a_inc(int x) { return x + 1; }
int a_square(int x) { return x * x; }
int a_value = 40;
static int words[4] = {1, 2, 3, 4};
int *a_last = &words[3];              /* a pointer to own data */
int *a_other = &b_counter;            /* a pointer to foreign data */
op a_ops[4] = {a_inc, a_square, b_twice, nobody};  /* own, own and exported, foreign, absent */

int a_run(int i, int x) { return a_ops[i] ? a_ops[i](x) : -1; }
int a_sum(void) { return *a_last + *a_other + a_value; }
int a_absent(void) { return (nobody ? 1 : 0) + (&nothing ? 2 : 0); }
int a_call(int x) { b_counter += 1; return b_twice(x) + host_log(x); }
op a_square_address(void) { return a_square; }
