main() { putchar(72); putchar(105); }
