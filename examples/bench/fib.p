/* Fibonacci numbers by recursion */
fib(n) return n < 2 ? n : fib(n - 1) + fib(n - 2);

main() return fib(32);
