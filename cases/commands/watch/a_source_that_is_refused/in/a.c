void main() { int a[10]; }
