#ifdef A // error 23

void main() { }
