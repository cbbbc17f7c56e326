/* Functions without a constant in memory, which are moved beyond the reach of a near branch. They call each other, and one function that
   stays where it is. */

typedef unsigned long u64;

extern u64 outside(u64 x);

u64 add(u64 a, u64 b) { return a + b; }
u64 gcd(u64 a, u64 b) { while (b) { u64 t = a % b; a = b; b = t; } return a; }
u64 fibonacci(u64 n) { return n < 2 ? n : fibonacci(n - 1) + fibonacci(n - 2); }
u64 collatz(u64 n) { u64 k = 0; while (n > 1) { n = n & 1 ? 3 * n + 1 : n / 2; k++; } return k; }
u64 asks(u64 n) { u64 s = 0; for (u64 i = 0; i < n; i++) s += outside(i) ^ gcd(i, 12); return s; }
u64 tail(u64 n) { return n & 1 ? outside(n + 5) : collatz(n + 1); }
