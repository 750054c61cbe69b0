// A text is not to be written: a write to one faults.
//> fault 1 at 0x
void main() { int* p = "ab"; *p = 1; }
