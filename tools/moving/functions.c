/* Functions whose machine code is moved and then run: loops, recursion, calls among each other, switches as branches,
   floating point, constants that are read relative to RIP, and one function of branches longer than 128 bytes both ways. */

typedef unsigned long u64;
typedef long i64;

u64 add(u64 a, u64 b) { return a + b; }
u64 gcd(u64 a, u64 b) { while (b) { u64 t = a % b; a = b; b = t; } return a; }
u64 fibonacci(u64 n) { return n < 2 ? n : fibonacci(n - 1) + fibonacci(n - 2); }
u64 factorial(u64 n) { u64 p = 1; for (u64 i = 2; i <= n; i++) p *= i; return p; }
u64 power(u64 x, u64 n) { u64 p = 1; while (n) { if (n & 1) p *= x; x *= x; n >>= 1; } return p; }
u64 ackermann(u64 m, u64 n) { if (!m) return n + 1; if (!n) return ackermann(m - 1, 1); return ackermann(m - 1, ackermann(m, n - 1)); }
u64 collatz(u64 n) { u64 k = 0; while (n > 1) { n = n & 1 ? 3 * n + 1 : n / 2; k++; } return k; }
u64 bits(u64 x) { u64 n = 0; while (x) { x &= x - 1; n++; } return n; }
u64 is_prime(u64 n) { if (n < 2) return 0; for (u64 d = 2; d * d <= n; d++) if (n % d == 0) return 0; return 1; }
u64 primes(u64 n) { u64 k = 0; for (u64 i = 0; i < n; i++) k += is_prime(i); return k; }

static const u64 weights[16] = { 3, 1, 4, 1, 5, 9, 2, 6, 5, 3, 5, 8, 9, 7, 9, 3 };
u64 weighted(u64 n) { u64 s = 0; for (u64 i = 0; i < n; i++) s += weights[i & 15] * i; return s; }

u64 classify(u64 n)
{
    switch (n % 11) {
    case 0: return add(n, 1);
    case 1: return gcd(n, 84);
    case 2: return power(n, 3);
    case 3: return bits(n);
    case 4: return collatz(n % 97 + 1);
    case 5: return factorial(n % 13);
    case 6: return n ^ 0x5555;
    case 7: return n << 3;
    case 8: return is_prime(n);
    case 9: return weighted(n % 40);
    default: return ~n;
    }
}

double poly(double x) { return ((1.25 * x - 3.5) * x + 0.75) * x - 2.0; }
double root(double x) { double r = x > 1 ? x : 1; for (int i = 0; i < 40; i++) r = 0.5 * (r + x / r); return r; }
u64 scaled(u64 n) { return (u64)(poly((double)n) + root((double)n) * 1000.0); }

u64 even(u64 n);
u64 odd(u64 n) { return n == 0 ? 0 : even(n - 1); }
u64 even(u64 n) { return n == 0 ? 1 : odd(n - 1); }

u64 search(u64 key)
{
    i64 low = 0, high = 1000;
    while (low <= high) {
        i64 mid = (low + high) / 2;
        u64 square = (u64)mid * (u64)mid;
        if (square == key) return (u64)mid;
        if (square < key) low = mid + 1; else high = mid - 1;
    }
    return ~0UL;
}

/* branches both ways over more than 128 bytes */
u64 mix(u64 x)
{
    u64 a = x, b = ~x, c = x * 0x9e3779b97f4a7c15UL, rounds = 0;
again:
    if (a & 1) { a = (a >> 1) ^ 0xd800000000000000UL; } else { a >>= 1; }
    if (b & 2) { b = b * 5 + 1; c ^= a << 7; } else { b = (b << 3) | (b >> 61); c += b; }
    if (c % 3 == 0) { c += a * b; a ^= c >> 11; } else if (c % 3 == 1) { b -= a; a += c << 2; } else { c = (c << 17) | (c >> 47); b ^= a; }
    if (a > b) { u64 t = a; a = b; b = t; }
    if ((a ^ b ^ c) % 7 == 0) { a += 0x1234567; b += 0x89abcdef; }
    if (c & 0x80) { c -= b; } else { c ^= b >> 5; }
    if (++rounds < 25) goto again;
    return a ^ b ^ c;
}

u64 loops(u64 n)
{
    u64 s = 0;
    for (u64 i = 0; i < n; i++)
        for (u64 j = 0; j < i; j++)
            if ((i ^ j) & 1) s += gcd(i, j + 1); else s += mix(i + j) & 0xff;
    return s;
}
