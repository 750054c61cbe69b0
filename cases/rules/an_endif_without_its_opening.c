#endif // error 20

void main() { }
