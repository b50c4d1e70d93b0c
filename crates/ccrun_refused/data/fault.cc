main() {
    putchar(72);
    putchar(;
}
