void main() { int[3] a; a[3] = 1; }
