float f;
void main() { }
